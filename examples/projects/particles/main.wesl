import emitter::emitted;
import mover::moved;

@compute @workgroup_size(64)
fn main(@builtin(global_invocation_id) id: vec3u) {
    moved(id.x, emitted(id.x));
}

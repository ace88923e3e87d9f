// package::main::main, main.wesl:4
@compute @workgroup_size(64)
fn main(@builtin(global_invocation_id) id: vec3u) {
    mover_moved(id.x, emitter_emitted(id.x));
}

// emitter::emitted, packages/emitter/lib.wesl:3
fn emitter_emitted(index: u32) -> particle_Particle {
    let part = f32(index) / f32(particle_count);
    return particle_Particle(vec3f(part, 0.0, 0.0), vec3f(0.0, 1.0, 0.0));
}

// mover::moved, packages/mover/lib.wesl:1
fn mover_moved(index: u32, old: particle_Particle) {
    if index < particle_count {
        particle_particles[index] = particle_Particle(old.position + old.speed, old.speed);
    }
}

// emitter/particle::count, packages/particle/lib.wesl:2
override particle_count: u32 = 1024;

// emitter/particle::Particle, packages/particle/lib.wesl:4
struct particle_Particle {
    position: vec3f,
    speed: vec3f
}

// emitter/particle::particles, packages/particle/lib.wesl:9
@group(0) @binding(0) var<storage, read_write> particle_particles: array<particle_Particle>;

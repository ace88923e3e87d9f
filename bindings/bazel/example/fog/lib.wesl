import package::density::depth;
import light::sunlight;

const mist = vec3f(0.6, 0.7, 0.8);

fn fade(color: vec3f, distance: f32) -> vec3f {
    return mix(mist * sunlight, color, depth(distance));
}

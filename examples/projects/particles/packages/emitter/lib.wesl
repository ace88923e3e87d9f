import particle::{Particle, count};

fn emitted(index: u32) -> Particle {
    let part = f32(index) / f32(count);
    return Particle(vec3f(part, 0.0, 0.0), vec3f(0.0, 1.0, 0.0));
}

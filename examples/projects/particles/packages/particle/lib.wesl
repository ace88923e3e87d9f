// What a particle is, and where all are.
override count: u32 = 1024;

struct Particle {
    position: vec3f,
    speed: vec3f,
}

@group(0) @binding(0) var<storage, read_write> particles: array<Particle>;

// Particles over the crests. Their entry points are handed on by the root, and get the names of this module.
import super::sky::color;
import package::main::{Params as View, params as view};

struct Params {
    size: vec2<f32>,
    gravity: f32,
    life: f32,
}

struct Particle {
    place: vec3<f32>,
    born: f32,
    speed: vec3<f32>,
    height: f32,
}

struct Spray {
    @builtin(position) clip: vec4<f32>,
    @location(0) corner: vec2<f32>,
    @location(1) @interpolate(flat, first) age: f32,
}

@group(2) @binding(0) var<uniform> params: Params;
@group(2) @binding(1) var<storage, read> particles: array<Particle>;

fn height(particle: Particle, age: f32) -> f32 {
    return particle.height + particle.speed.y * age - 0.5 * params.gravity * age * age;
}

@vertex
fn vs_spray(@builtin(vertex_index) vertex: u32, @builtin(instance_index) instance: u32) -> Spray {
    let particle = particles[instance];
    let age = view.time - particle.born;
    let corner = vec2<f32>(f32(vertex & 1u), f32(vertex >> 1u)) * 2.0 - 1.0;
    let center = vec3<f32>(particle.place.x + particle.speed.x * age, height(particle, age), particle.place.z + particle.speed.z * age);
    var out: Spray;
    out.clip = view.view_projection * vec4<f32>(center, 1.0) + vec4<f32>(corner * params.size, 0.0, 0.0);
    out.corner = corner;
    out.age = age / params.life;
    return out;
}

@fragment
fn fs_spray(in: Spray) -> @location(0) vec4<f32> {
    let fade = saturate(1.0 - length(in.corner)) * saturate(1.0 - in.age);
    if fade <= 0.0 { discard; }
    return vec4<f32>(color(vec3<f32>(0.0, 1.0, 0.0)), fade);
}

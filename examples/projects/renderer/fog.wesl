// Exponential fog that thins with height, summed along the ray.
import super::lighting::lights::sun;

struct Fog {
    color: vec3<f32>,
    density: f32,
    falloff: f32,
    base: f32,
}

@group(0) @binding(10) var<uniform> settings: Fog;

fn applied(color: vec3<f32>, eye: vec3<f32>, world: vec3<f32>) -> vec3<f32> {
    let ray = world - eye;
    let distance = length(ray);
    let climb = ray.y * settings.falloff;
    let start = settings.density * exp(-settings.falloff * (eye.y - settings.base));
    // The integral of the density along the ray, by its series where the ray is level.
    let amount = start * distance * select((1.0 - exp(-climb)) / climb, 1.0 - climb * 0.5, abs(climb) < 1e-3);
    let toward_sun = pow(saturate(dot(ray / distance, -sun.direction)), 8.0);
    let tinted = mix(settings.color, sun.color, toward_sun);
    return mix(tinted, color, exp(-amount));
}

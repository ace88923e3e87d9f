struct Params {
    zenith: vec3<f32>,
    horizon: vec3<f32>,
    sun: vec3<f32>,
    sun_size: f32,
}

@group(1) @binding(1) var<uniform> params: Params;

fn height(direction: vec3<f32>) -> f32 { return saturate(direction.y); }

fn color(direction: vec3<f32>) -> vec3<f32> {
    let color = mix(params.horizon, params.zenith, height(direction));
    return color + vec3<f32>(smoothstep(1.0 - params.sun_size, 1.0, dot(direction, params.sun)));
}

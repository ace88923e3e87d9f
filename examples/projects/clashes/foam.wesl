import noise::{height as noise_height, COUNT};

struct Params {
    color: vec3<f32>,
    threshold: f32,
}

@group(1) @binding(2) var<uniform> params: Params;

// `COUNT` is that of the package here, and not that of the waves.
fn height(place: vec2<f32>) -> f32 {
    var height = 0.0;
    for (var i = 0u; i < COUNT; i++) { height += noise_height(place * f32(1u << i)) / f32(COUNT); }
    return height;
}

fn color(place: vec2<f32>, steepness: f32) -> vec4<f32> {
    let params_color = params.color;
    return vec4<f32>(params_color, saturate((height(place) * steepness - params.threshold) * 4.0));
}

// Cascaded shadow maps of the sun.
const CASCADES = 4u;
override depth_bias: f32 = 0.0015;
@id(3) override normal_bias: f32 = 0.4;

struct Cascades {
    matrices: array<mat4x4<f32>, CASCADES>,
    far: vec4<f32>,
    texel: f32,
}

@group(0) @binding(7) var<uniform> cascades: Cascades;
@group(0) @binding(8) var shadow_map: texture_depth_2d_array;
@group(0) @binding(9) var shadow_sampler: sampler_comparison;

fn matrix_of(index: u32) -> mat4x4<f32> {
    return cascades.matrices[min(index, CASCADES - 1u)];
}

fn cascade_at(depth: f32) -> u32 {
    var index = 0u;
    loop {
        if index + 1u >= CASCADES || depth < cascades.far[index] { break; }
        continuing { index++; }
    }
    return index;
}

@if(SOFT_SHADOWS)
fn lit(uv: vec2<f32>, layer: u32, depth: f32) -> f32 {
    var sum = 0.0;
    for (var y = -1; y <= 1; y++) {
        for (var x = -1; x <= 1; x++) {
            let offset = vec2<f32>(vec2<i32>(x, y)) * cascades.texel;
            sum += textureSampleCompareLevel(shadow_map, shadow_sampler, uv + offset, layer, depth);
        }
    }
    return sum / 9.0;
}
@else
fn lit(uv: vec2<f32>, layer: u32, depth: f32) -> f32 {
    return textureSampleCompareLevel(shadow_map, shadow_sampler, uv, layer, depth);
}

fn sun_visibility(world: vec3<f32>, depth: f32, n_dot_l: f32) -> f32 {
    let layer = cascade_at(depth);
    let slope = 1.0 - saturate(n_dot_l);
    let clip = matrix_of(layer) * vec4<f32>(world, 1.0);
    let uv = clip.xy * vec2<f32>(0.5, -0.5) + 0.5;
    if any(uv != saturate(uv)) { return 1.0; }
    return lit(uv, layer, clip.z + depth_bias * (1.0 + normal_bias * slope));
}

@if(DEBUG_CASCADES)
const nearest_cascade = 0u;

@if(DEBUG_CASCADES)
fn tint(depth: f32) -> vec3<f32> {
    switch cascade_at(depth) {
        case nearest_cascade: { return vec3<f32>(1.0, 0.6, 0.6); }
        case 1u: { return vec3<f32>(0.6, 1.0, 0.6); }
        case 2u: { return vec3<f32>(0.6, 0.6, 1.0); }
        default: { return vec3<f32>(1.0, 1.0, 0.6); }
    }
}

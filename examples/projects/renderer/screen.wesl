// One triangle over the whole screen, and how the image is developed there.
import package::frame::camera;
import tonemap::{encoded, grain};
@if(ACES) import tonemap::curves::aces as curve;
@elif(FILMIC) import tonemap::curves::filmic as curve;
@else import tonemap::curves::clipped as curve;

struct Corner {
    @builtin(position) place: vec4<f32>,
    @location(0) uv: vec2<f32>,
}

@group(2) @binding(0) var image: texture_2d<f32>;
@group(2) @binding(1) var image_sampler: sampler;

fn corner(index: u32) -> Corner {
    let uv = vec2<f32>(f32((index << 1u) & 2u), f32(index & 2u));
    return Corner(vec4<f32>(uv * vec2<f32>(2.0, -2.0) + vec2<f32>(-1.0, 1.0), 0.0, 1.0), uv);
}

fn vignette(uv: vec2<f32>) -> f32 {
    let from_center = uv - 0.5;
    return smoothstep(0.9, 0.3, length(from_center));
}

fn developed(uv: vec2<f32>) -> vec3<f32> {
    let color = textureSampleLevel(image, image_sampler, uv, 0.0).rgb;
    let exposed = color * camera.exposure * vignette(uv);
    return encoded(curve(exposed)) + grain(uv, camera.frame) / 255.0;
}

// From light to what a screen shows.
import numeric::{hashed, unit_float};

fn encoded(color: vec3<f32>) -> vec3<f32> {
    let low = color * 12.92;
    let high = 1.055 * pow(max(color, vec3<f32>(0.0)), vec3<f32>(1.0 / 2.4)) - 0.055;
    return select(high, low, color <= vec3<f32>(0.0031308));
}

// Noise of less than a step of the screen, against bands.
fn grain(uv: vec2<f32>, frame: u32) -> f32 {
    let seed = hashed(bitcast<u32>(uv.x) ^ hashed(bitcast<u32>(uv.y) ^ hashed(frame)));
    return unit_float(seed) - 0.5;
}

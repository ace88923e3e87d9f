// Noise of values, as a package with the same names again.
const COUNT = 3u;

fn color(place: vec2<i32>) -> f32 {
    var bits = (u32(place.x) * 0x27d4eb2du) ^ (u32(place.y) * 0x165667b1u);
    bits = (bits ^ (bits >> 15u)) * 0x85ebca6bu;
    return f32(bits >> 8u) / 16777216.0;
}

fn height(place: vec2<f32>) -> f32 {
    let cell = vec2<i32>(floor(place));
    let inside = fract(place);
    let weight = inside * inside * (3.0 - 2.0 * inside);
    let low = mix(color(cell), color(cell + vec2<i32>(1, 0)), weight.x);
    let high = mix(color(cell + vec2<i32>(0, 1)), color(cell + vec2<i32>(1, 1)), weight.x);
    return mix(low, high, weight.y);
}

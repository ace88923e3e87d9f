// A sum of trochoidal waves.
struct Wave {
    direction: vec2<f32>,
    height: f32,
    length: f32,
}

struct Params {
    waves: array<Wave, COUNT>,
    speed: f32,
    choppiness: f32,
}

const COUNT = 4u;
const TAU = 6.2831853;
@group(1) @binding(0) var<uniform> params: Params;

fn phase(wave: Wave, place: vec2<f32>, time: f32) -> f32 {
    return TAU / wave.length * (dot(wave.direction, place) - params.speed * time * sqrt(wave.length));
}

fn height(place: vec2<f32>, time: f32) -> f32 {
    var height = 0.0;
    for (var i = 0u; i < COUNT; i++) {
        let wave = params.waves[i];
        height += wave.height * pow(0.5 + 0.5 * sin(phase(wave, place, time)), params.choppiness);
    }
    return height;
}

fn slope(place: vec2<f32>, time: f32) -> vec2<f32> {
    const STEP = 0.05;
    let here = height(place, time);
    return vec2<f32>(height(place + vec2<f32>(STEP, 0.0), time) - here, height(place + vec2<f32>(0.0, STEP), time) - here) / STEP;
}

fn steepness(place: vec2<f32>, time: f32) -> f32 { return saturate(length(slope(place, time))); }

fn normal(place: vec2<f32>, time: f32) -> vec3<f32> {
    let slope = slope(place, time);
    return normalize(vec3<f32>(-slope.x, 1.0, -slope.y));
}

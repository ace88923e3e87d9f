// Lights as the renderer binds them.
const LightKind_POINT = 0u;
const LightKind_SPOT = 1u;
const_assert LightKind_SPOT != LightKind_POINT;

struct Sun {
    direction: vec3<f32>,
    illuminance: f32,
    color: vec3<f32>,
    angle: f32,
    sky: vec3<f32>,
    @size(16) ground: vec3<f32>,
}

struct PointLight {
    position: vec3<f32>,
    range: f32,
    color: vec3<f32>,
    intensity: f32,
    direction: vec3<f32>,
    kind: u32,
    cone: vec2<f32>,
}

@group(0) @binding(3) var<uniform> sun: Sun;
@group(0) @binding(4) var<storage, read> point_lights: array<PointLight>;

// The square of the distance, with a window that ends at the range.
fn falloff(distance: f32, range: f32) -> f32 {
    let ratio = distance / range;
    let window = saturate(1.0 - ratio * ratio * ratio * ratio);
    return window * window / max(distance * distance, 1e-4);
}

fn spot_factor(light: PointLight, to_light: vec3<f32>) -> f32 {
    let angle = dot(-to_light, light.direction);
    let t = saturate((angle - light.cone.y) / max(light.cone.x - light.cone.y, 1e-3));
    return t * t;
}

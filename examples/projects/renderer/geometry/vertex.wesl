// The interface of the shaded pass.
struct VertexIn {
    @location(0) position: vec3<f32>,
    @location(1) normal: vec3<f32>,
    @location(2) uv: vec2<f32>,
    @if(NORMAL_MAP) @location(3) tangent: vec4<f32>,
    @if(SKINNING) @location(4) joints: vec4<u32>,
    @if(SKINNING) @location(5) weights: vec4<f32>,
}

struct VertexOut {
    @builtin(position) @invariant clip: vec4<f32>,
    @location(0) world: vec3<f32>,
    @location(1) depth: f32,
    @location(2) normal: vec3<f32>,
    @location(3) uv: vec2<f32>,
    @location(4) @interpolate(flat, either) material: u32,
    @if(NORMAL_MAP) @location(5) tangent: vec4<f32>,
}

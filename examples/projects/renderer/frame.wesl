// What is bound once a frame. Depth runs from 1 at the near plane to 0; clip space is that of WebGPU.
struct Camera {
    view: mat4x4<f32>,
    projection: mat4x4<f32>,
    view_projection: mat4x4<f32>,
    position: vec3<f32>,
    near: f32,
    viewport: vec2<f32>,
    far: f32,
    exposure: f32,
    time: f32,
    @size(12) frame: u32,
}

struct Instance {
    model: mat4x4<f32>,
    uv_scale: vec2<f32>,
    uv_offset: vec2<f32>,
    material: u32,
}

@group(0) @binding(0) var<uniform> camera: Camera;
@group(0) @binding(1) var<storage, read> instances: array<Instance>;

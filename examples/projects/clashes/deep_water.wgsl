const COUNT = vec3<f32>(0.35, 0.07, 0.03);

fn tint(height: f32) -> vec3<f32> {
    return exp(-COUNT * (4.0 - min(height, 4.0))) * vec3<f32>(0.1, 0.4, 0.5);
}

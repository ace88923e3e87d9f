fn streaks(color: vec3f, distance: f32) -> vec3f {
    return color * (0.9 + 0.1 * fract(distance));
}

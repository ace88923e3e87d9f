const sun = vec3f(0.2, 0.9, 0.4);

const sunlight = vec3f(1.0, 0.9, 0.8);

fn shade(normal: vec3f) -> vec3f {
    return vec3f(0.1) + max(dot(normalize(normal), normalize(sun)), 0.0) * sunlight;
}

const sun = vec3f(0.2, 0.9, 0.4);

fn shade(normal: vec3f) -> vec3f {
    return vec3f(0.1) + max(dot(normalize(normal), sun), 0.0) * vec3f(0.9);
}

fn unused() {}

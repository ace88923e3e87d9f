import numeric::{PI, TINY, square, fifth_power};

struct Lobe {
    normal: vec3<f32>,
    view: vec3<f32>,
    light: vec3<f32>,
    roughness: f32,
}

fn half_vector(lobe: Lobe) -> vec3<f32> { return normalize(lobe.view + lobe.light); }
fn schlick(cosine: f32, f0: f32, f90: f32) -> f32 { return f0 + (f90 - f0) * fifth_power(1.0 - cosine); }

// Trowbridge and Reitz's distribution.
fn distribution(n_dot_h: f32, alpha: f32) -> f32 {
    let a = n_dot_h * alpha;
    let k = alpha / max(1.0 - square(n_dot_h) + square(a), TINY);
    return k * k / PI;
}

// Smith's masking, divided by what the reflection is divided by.
fn visibility(n_dot_v: f32, n_dot_l: f32, alpha: f32) -> f32 {
    let a2 = square(alpha);
    let v = n_dot_l * sqrt(square(n_dot_v) * (1.0 - a2) + a2);
    let l = n_dot_v * sqrt(square(n_dot_l) * (1.0 - a2) + a2);
    return 0.5 / max(v + l, TINY);
}

fn specular(lobe: Lobe, f0: vec3<f32>) -> vec3<f32> {
    let h = half_vector(lobe);
    let alpha = square(lobe.roughness);
    let n_dot_v = abs(dot(lobe.normal, lobe.view)) + TINY;
    let n_dot_l = saturate(dot(lobe.normal, lobe.light));
    let fresnel = f0 + (1.0 - f0) * fifth_power(1.0 - saturate(dot(lobe.view, h)));
    return distribution(saturate(dot(lobe.normal, h)), alpha) * visibility(n_dot_v, n_dot_l, alpha) * fresnel;
}

// Curves; a program links the one that its flags choose.
fn clipped(x: vec3<f32>) -> vec3<f32> { return saturate(x); }

fn aces(x: vec3<f32>) -> vec3<f32> {
    return saturate((x * (2.51 * x + 0.03)) / (x * (2.43 * x + 0.59) + 0.14));
}

fn filmic(x: vec3<f32>) -> vec3<f32> {
    return shoulder(x * 2.0) / shoulder(vec3<f32>(WHITE));
}

const WHITE = 11.2;
fn shoulder(x: vec3<f32>) -> vec3<f32> {
    const A = 0.15;
    const B = 0.50;
    const C = 0.10;
    const D = 0.20;
    const E = 0.02;
    const F = 0.30;
    return (x * (A * x + C * B) + D * E) / (x * (A * x + B) + D * F) - E / F;
}

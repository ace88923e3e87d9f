// Small functions that other packages stand on.
const PI: f32 = 3.14159265359;
const TINY: f32 = 1e-5;

fn square(x: f32) -> f32 { return x * x; }
fn fifth_power(x: f32) -> f32 {
    let x2 = x * x;
    return x2 * x2 * x;
}

// The hash PCG of a number.
fn hashed(value: u32) -> u32 {
    let state = value * 747796405u + 2891336453u;
    let word = ((state >> ((state >> 28u) + 4u)) ^ state) * 277803737u;
    return (word >> 22u) ^ word;
}
fn unit_float(bits: u32) -> f32 { return bitcast<f32>((bits >> 9u) | 0x3f800000u) - 1.0; }

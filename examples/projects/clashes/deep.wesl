// `package::deep::water_tint` and `package::deep_water::tint`: two things whose names come close to each other when they are joined.
const COUNT = 3.0;

fn water_tint(steepness: f32) -> vec3<f32> {
    return vec3<f32>(0.0, 0.2, 0.25) * (1.0 + steepness / COUNT);
}

const thickness = 0.02;

fn depth(distance: f32) -> f32 {
    return exp(-thickness * distance);
}

import super::super::waves::normal;
import super::COUNT;

fn height(normal: vec3<f32>) -> f32 { return pow(saturate(normal.y), 8.0); }

fn color(place: vec2<f32>, time: f32) -> vec3<f32> {
    // A parameter of `height` has the name of the function that is called for it.
    return vec3<f32>(height(normal(place * COUNT, time * 1.5)) * 0.1);
}

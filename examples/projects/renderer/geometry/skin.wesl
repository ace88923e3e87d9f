// Linear blend skinning. Joints lie behind one another, those of an instance from `first_joint` on.
const MOST_INFLUENCES = 4;
const_assert MOST_INFLUENCES <= 4;

@if(SKINNING) @group(0) @binding(2) var<storage, read> joint_matrices: array<mat4x4<f32>>;

@if(SKINNING)
fn blended(joints: vec4<u32>, weights: vec4<f32>) -> mat4x4<f32> {
    var sum = mat4x4<f32>();
    for (var i = 0; i < MOST_INFLUENCES; i++) {
        let weight = weights[i];
        if weight <= 0.0 { continue; }
        sum += weight * joint_matrices[joints[i]];
    }
    return sum;
}

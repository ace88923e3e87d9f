// One value of all values of a workgroup: their sum, or with MAXIMUM the greatest.
import super::config::{block, Value};

@if(SUBGROUPS) enable subgroups;

var<workgroup> partials: array<Value, block>;

@if(MAXIMUM)
fn combined(a: Value, b: Value) -> Value { return max(a, b); }
@else
fn combined(a: Value, b: Value) -> Value { return a + b; }

@if(MAXIMUM)
fn neutral() -> Value { return Value(-60000.0); }
@else
fn neutral() -> Value { return Value(0.0); }

@if(SUBGROUPS && !MAXIMUM)
fn folded(value: Value, lane: u32, subgroup: u32, subgroup_lane: u32, subgroups: u32) -> Value {
    // Each subgroup first, and then the first invocations of all.
    let sum = subgroupAdd(value);
    if subgroup_lane == 0u { partials[subgroup] = sum; }
    workgroupBarrier();
    if lane == 0u {
        for (var i = 1u; i < subgroups; i++) { partials[0] = combined(partials[0], partials[i]); }
    }
    return workgroupUniformLoad(&partials[0]);
}
@else
fn folded(value: Value, lane: u32) -> Value {
    partials[lane] = value;
    workgroupBarrier();
    for (var stride = block / 2u; stride > 0u; stride >>= 1u) {
        if lane < stride { partials[lane] = combined(partials[lane], partials[lane + stride]); }
        workgroupBarrier();
    }
    return workgroupUniformLoad(&partials[0]);
}

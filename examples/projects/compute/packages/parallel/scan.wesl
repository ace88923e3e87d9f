// Prefix sums of a workgroup, in one of two ways.
import package::config::{block, log_block};

var<workgroup> sums: array<u32, block>;

@if(BLELLOCH)
fn exclusive_sum(value: u32, lane: u32) -> u32 {
    workgroupBarrier();
    sums[lane] = value;
    // Up the tree, and down again.
    for (var level = 0u; level < log_block; level++) {
        workgroupBarrier();
        let step = 2u << level;
        if lane < (block >> (level + 1u)) {
            sums[lane * step + step - 1u] += sums[lane * step + step / 2u - 1u];
        }
    }
    workgroupBarrier();
    if lane == 0u { sums[block - 1u] = 0u; }
    for (var level = log_block; level > 0u; level--) {
        workgroupBarrier();
        let step = 1u << level;
        if lane < (block >> level) {
            let low = lane * step + step / 2u - 1u;
            let high = lane * step + step - 1u;
            let kept = sums[low];
            sums[low] = sums[high];
            sums[high] += kept;
        }
    }
    workgroupBarrier();
    return sums[lane];
}
@else
fn exclusive_sum(value: u32, lane: u32) -> u32 {
    workgroupBarrier();
    sums[lane] = value;
    workgroupBarrier();
    for (var distance = 1u; distance < block; distance <<= 1u) {
        var below = 0u;
        if lane >= distance { below = sums[lane - distance]; }
        workgroupBarrier();
        sums[lane] += below;
        workgroupBarrier();
    }
    return sums[lane] - value;
}

fn inclusive_sum(value: u32, lane: u32) -> u32 {
    return exclusive_sum(value, lane) + value;
}

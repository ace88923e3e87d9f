// The operations of the package over one buffer, for a test of what they give.
import parallel::{exclusive_sum, inclusive_sum, folded, clear_bins, count_in, bin_total, block, Value, BINS};

@group(0) @binding(0) var<storage, read_write> numbers: array<u32>;

@compute @workgroup_size(block)
fn check(@builtin(local_invocation_index) lane: u32) {
    let number = numbers[lane];
    let before = exclusive_sum(number, lane);
    let through = inclusive_sum(number, lane);
    let whole = folded(Value(number), lane);
    clear_bins(lane);
    count_in(number % BINS);
    workgroupBarrier();
    // Of the first four numbers: what comes before them, what comes up to them, their bins, and the fold of all.
    if lane < 4u {
        numbers[lane] = before;
        numbers[lane + 4u] = through;
        numbers[lane + 8u] = bin_total(number % BINS);
        numbers[lane + 12u] = u32(whole);
    }
}

// Counts in workgroup memory.
const BINS = 64u;
const_assert (BINS & (BINS - 1u)) == 0u;

var<workgroup> counts: array<atomic<u32>, BINS>;

fn clear_bins(lane: u32) {
    if lane < BINS { atomicStore(&counts[lane], 0u); }
    workgroupBarrier();
}

fn count_in(bin: u32) {
    atomicAdd(&counts[min(bin, BINS - 1u)], 1u);
}

fn bin_total(bin: u32) -> u32 {
    return atomicLoad(&counts[bin]);
}

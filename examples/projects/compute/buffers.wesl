// What the kernels read and write.
import parallel::BINS;

struct Extent {
    count: u32,
    side: u32,
}

@group(0) @binding(0) var<uniform> extent: Extent;
@group(0) @binding(1) var<storage, read> values: array<f32>;
@group(0) @binding(2) var<storage, read_write> results: array<f32>;
@group(0) @binding(3) var<storage, read> flags_in: array<u32>;
@group(0) @binding(4) var<storage, read_write> kept: array<f32>;
@group(0) @binding(5) var<storage, read_write> kept_count: atomic<u32>;
@group(0) @binding(6) var<storage, read_write> histogram: array<atomic<u32>, BINS>;

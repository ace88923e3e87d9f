// The kernels. Their workgroups have one size, which a program sets by the override with the number 0.
import parallel::{folded, combined, neutral, exclusive_sum, block, Value, BINS};
import parallel::{clear_bins, count_in, bin_total};
import package::buffers::{values, results, flags_in, kept, kept_count, histogram, extent};
import package::matrix::{cell, tile};
import package::blur::{loaded, blurred, APRON};
import super::compact::place_for;

requires readonly_and_readwrite_storage_textures;

struct Group {
    @builtin(workgroup_id) id: vec3<u32>,
    @builtin(local_invocation_index) lane: u32,
    @if(SUBGROUPS && !MAXIMUM) @builtin(subgroup_invocation_id) subgroup_lane: u32,
    @if(SUBGROUPS && !MAXIMUM) @builtin(subgroup_size) subgroup_size: u32,
}

// One value of each block of values, several of which a workgroup takes in turn.
@compute @workgroup_size(block)
fn reduce(group: Group, @builtin(num_workgroups) groups: vec3<u32>) {
    var value = neutral();
    for (var i = group.id.x * block + group.lane; i < extent.count; i += groups.x * block) {
        value = combined(value, Value(values[i]));
    }
    @if(SUBGROUPS && !MAXIMUM) let whole = folded(value, group.lane, group.lane / group.subgroup_size, group.subgroup_lane, block / group.subgroup_size);
    @else let whole = folded(value, group.lane);
    if group.lane == 0u { results[group.id.x] = f32(whole); }
}

@compute @workgroup_size(block)
fn count(@builtin(global_invocation_id) id: vec3<u32>, @builtin(local_invocation_index) lane: u32) {
    clear_bins(lane);
    if id.x < extent.count {
        count_in(u32(saturate(values[id.x]) * f32(BINS)));
    }
    workgroupBarrier();
    if lane < BINS { atomicAdd(&histogram[lane], bin_total(lane)); }
}

// The values that are flagged, one behind the other.
@compute @workgroup_size(block)
fn compact(@builtin(global_invocation_id) id: vec3<u32>, @builtin(local_invocation_index) lane: u32) {
    let is_kept = id.x < extent.count && flags_in[min(id.x, extent.count - 1u)] != 0u;
    let place = place_for(is_kept, lane);
    if is_kept { kept[place] = values[id.x]; }
}

// A product of two square matrices, a tile at a time.
@compute @workgroup_size(tile, tile)
fn multiply(@builtin(global_invocation_id) id: vec3<u32>, @builtin(local_invocation_id) local: vec3<u32>) {
    let found = cell(id.xy, local.xy);
    if all(id.xy < vec2<u32>(extent.side)) { results[id.y * extent.side + id.x] = found; }
}

@compute @workgroup_size(block)
fn blur(@builtin(global_invocation_id) id: vec3<u32>, @builtin(local_invocation_index) lane: u32) {
    loaded(id.x, lane);
    workgroupBarrier();
    if id.x < extent.count { results[id.x] = blurred(lane + APRON); }
}

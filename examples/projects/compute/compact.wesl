// Where flagged values go: the places of a workgroup are taken at once, from a counter in storage.
import package::buffers::kept_count;
import parallel::{inclusive_sum, block as invocations};

var<workgroup> first_place: u32;

fn place_for(is_kept: bool, lane: u32) -> u32 {
    let own = select(0u, 1u, is_kept);
    let behind = inclusive_sum(own, lane);
    if lane == invocations - 1u { first_place = atomicAdd(&kept_count, behind); }
    return workgroupUniformLoad(&first_place) + behind - own;
}

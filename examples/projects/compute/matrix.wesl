// Tiles of matrices in workgroup memory. A tile has `tile` times `tile` cells; both sizes are overrides.
import package::buffers::{values, extent};
import parallel::Value;

@id(1) override tile: u32 = 8u;
override cells = tile * tile;

var<workgroup> left_tile: array<Value, cells>;
var<workgroup> right_tile: array<Value, cells>;

fn entry(row: u32, column: u32) -> Value {
    let side = extent.side;
    if row >= side || column >= side { return Value(0.0); }
    return Value(values[row * side + column]);
}

// The entry at `place` of the square of the matrix.
fn cell(place: vec2<u32>, local: vec2<u32>) -> f32 {
    var sum = 0.0;
    let own = local.y * tile + local.x;
    let tiles = (extent.side + tile - 1u) / tile;
    for (var step = 0u; step < tiles; step++) {
        left_tile[own] = entry(place.y, step * tile + local.x);
        right_tile[own] = entry(step * tile + local.y, place.x);
        workgroupBarrier();
        for (var i = 0u; i < tile; i++) {
            sum += f32(left_tile[local.y * tile + i] * right_tile[i * tile + local.x]);
        }
        workgroupBarrier();
    }
    return sum;
}

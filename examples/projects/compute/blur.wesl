// A row of values with an apron on both sides, and a bell of weights over it.
import package::buffers::{values, extent};
import parallel::block;

const APRON = 4u;
const WEIGHTS = array<f32, APRON + 1u>(0.2270270270, 0.1945945946, 0.1216216216, 0.0540540541, 0.0162162162);
override padded = block + 2u * APRON;

var<workgroup> row: array<f32, padded>;

fn value_at(place: i32) -> f32 {
    return values[clamp(place, 0, i32(extent.count) - 1)];
}

fn loaded(place: u32, lane: u32) {
    row[lane + APRON] = value_at(i32(place));
    if lane < APRON {
        row[lane] = value_at(i32(place) - i32(APRON));
        row[lane + block + APRON] = value_at(i32(place + block));
    }
}

fn blurred(center: u32) -> f32 {
    var weights = WEIGHTS;
    var sum = row[center] * weights[0];
    for (var i = 1u; i <= APRON; i++) {
        sum += (row[center - i] + row[center + i]) * weights[i];
    }
    return sum;
}

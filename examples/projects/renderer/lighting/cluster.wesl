// The view frustum in boxes, and the lights of each box.
import package::frame::camera;

const GRID = vec3<u32>(16u, 9u, 24u);
const BOXES = GRID.x * GRID.y * GRID.z;
const_assert BOXES < (1u << 16u);

struct Box {
    offset: u32,
    count: u32,
}

struct Range {
    first: u32,
    end: u32,
}

@group(0) @binding(5) var<storage, read> boxes: array<Box, BOXES>;
@group(0) @binding(6) var<storage, read> light_indices: array<u32>;

fn slice_of(depth: f32) -> u32 {
    // Slices grow with the distance, so that boxes stay about as deep as they are wide.
    let ratio = log(max(depth, camera.near) / camera.near) / log(camera.far / camera.near);
    return min(u32(ratio * f32(GRID.z)), GRID.z - 1u);
}

fn box_of(pixel: vec2<f32>, depth: f32) -> u32 {
    let tile = min(vec2<u32>(pixel / camera.viewport * vec2<f32>(GRID.xy)), GRID.xy - 1u);
    return tile.x + GRID.x * (tile.y + GRID.y * slice_of(depth));
}

fn range_of(pixel: vec2<f32>, depth: f32) -> Range {
    let found = boxes[box_of(pixel, depth)];
    return Range(found.offset, found.offset + found.count);
}

fn light_at(place: u32) -> u32 {
    return light_indices[min(place, arrayLength(&light_indices) - 1u)];
}

@if(DEBUG_CLUSTERS)
fn tint(pixel: vec2<f32>, depth: f32) -> vec3<f32> {
    let range = range_of(pixel, depth);
    let load = saturate(f32(range.end - range.first) / 16.0);
    return vec3<f32>(load, 1.0 - load, f32(slice_of(depth) & 1u));
}

// Water: its modules have a `Params`, a `params`, a `height` and a `color` each, and this one has some of these names too.
import package::waves;
import package::waves::{Params as WaveParams, height as wave_height};
import package::sky::color as sky_color;
import package::deep::water_tint;
import package::deep_water::tint;
import package::foam;
import noise::height as height_of_noise;
@publish import package::spray::{vs_spray, fs_spray};

struct Params {
    view_projection: mat4x4<f32>,
    eye: vec3<f32>,
    time: f32,
}

@group(0) @binding(0) var<uniform> params: Params;

struct Water {
    @builtin(position) clip: vec4<f32>,
    @location(0) place: vec3<f32>,
    @location(1) normal: vec3<f32>,
    @location(2) height: f32,
}

// The built-in functions that old shaders brought along, under the names that have since been taken.
@if(OLD_HELPERS)
fn saturate(x: vec3<f32>) -> vec3<f32> { return clamp(x, vec3<f32>(0.0), vec3<f32>(1.0)); }

// The name of a function of another module, here with another meaning.
fn height(place: vec2<f32>) -> f32 {
    return wave_height(place, params.time) + 0.05 * height_of_noise(place * 4.0);
}

fn color(water: Water, view: vec3<f32>) -> vec3<f32> {
    // `normal` hides nothing; `color` is this function until the name is declared, and so is `sky_color` an import.
    let normal = normalize(water.normal);
    let mirrored = sky_color(reflect(-view, normal));
    let waves = waves::steepness(water.place.xz, params.time);
    let tinted = mix(tint(water.height), water_tint(waves), 0.5);
    let fresnel = 0.02 + 0.98 * pow(1.0 - clamp(dot(view, normal), 0.0, 1.0), 5.0);
    var color = mix(tinted, mirrored, fresnel);
    @if(FOAM) {
        let foam = foam::color(water.place.xz, waves);
        color = mix(color, foam.rgb, foam.a);
    }
    @if(CAUSTICS) color += package::deep::caustics::color(water.place.xz, params.time);
    @if(OLD_HELPERS) color = saturate(color);
    return color;
}

@vertex
fn vs_main(@location(0) grid: vec2<f32>) -> Water {
    let place = vec3<f32>(grid.x, height(grid), grid.y);
    let normal = waves::normal(grid, params.time);
    return Water(params.view_projection * vec4<f32>(place, 1.0), place, normal, place.y);
}

@fragment
fn fs_main(water: Water) -> @location(0) vec4<f32> {
    let view = normalize(params.eye - water.place);
    // What somebody merged by hand, with the names that the linker gave once.
    @if(MERGED) {
        let package_foam_color = vec4<f32>(1.0, 0.0, 1.0, 0.5);
        let marked = foam::color(water.place.xz, package_foam_color.a);
        return vec4<f32>(color(water, view) + marked.rgb * package_foam_color.rgb, 1.0);
    }
    @else return vec4<f32>(color(water, view), 1.0);
}

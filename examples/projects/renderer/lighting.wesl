// All light that falls on a surface. What other modules need of the modules below is handed on here.
import package::material::Surface;
import package::frame::camera;
import self::lights::{sun, point_lights, falloff, spot_factor, LightKind_SPOT as SPOT};
import self::cluster;
import brdf::{specular, diffuse_burley, Lobe};
@if(CLEAR_COAT) import brdf::coat::{attenuation as coat_attenuation, lobe as coat_lobe};
@if(SHADOWS) import self::shadow::sun_visibility;
@publish import self::shadow::{matrix_of as cascade_matrix};
@if(DEBUG_CASCADES) @publish import self::shadow::tint as cascade_tint;
@if(DEBUG_CLUSTERS) @publish import self::cluster::tint as cluster_tint;

// What one direction of light leaves a surface with.
fn shaded(surface: Surface, view: vec3<f32>, light: vec3<f32>, radiance: vec3<f32>) -> vec3<f32> {
    let n_dot_l = dot(surface.normal, light);
    if n_dot_l <= 0.0 { return vec3<f32>(); }
    let lobe = Lobe(surface.normal, view, light, surface.roughness);
    let diffuse = surface.diffuse * diffuse_burley(lobe);
    var reflected = diffuse + specular(lobe, surface.f0);
    @if(CLEAR_COAT) {
        reflected = reflected * coat_attenuation(lobe, surface.coat) + coat_lobe(lobe, surface.coat, surface.coat_roughness);
    }
    return reflected * radiance * n_dot_l;
}

fn direct_light(surface: Surface, view: vec3<f32>, world: vec3<f32>, depth: f32, pixel: vec2<f32>) -> vec3<f32> {
    var sun_radiance = sun.color * sun.illuminance;
    @if(SHADOWS) sun_radiance *= sun_visibility(world, depth, dot(surface.normal, -sun.direction));
    var sum = shaded(surface, view, -sun.direction, sun_radiance);

    let range = cluster::range_of(pixel, depth);
    for (var i = range.first; i < range.end; i++) {
        let light = &point_lights[cluster::light_at(i)];
        let to_light = (*light).position - world;
        let distance = length(to_light);
        if distance >= (*light).range { continue; }
        let direction = to_light / distance;
        var strength = falloff(distance, (*light).range) * (*light).intensity;
        if (*light).kind == SPOT {
            strength *= spot_factor(*light, direction);
        }
        sum += shaded(surface, view, direction, (*light).color * strength);
    }
    return sum;
}

fn ambient_light(surface: Surface, view: vec3<f32>) -> vec3<f32> {
    // A sky above and a ground below, and a rough reflection of both.
    let up = surface.normal.y * 0.5 + 0.5;
    let mirrored = reflect(-view, surface.normal).y * 0.5 + 0.5;
    let diffuse = mix(sun.ground, sun.sky, up) * surface.diffuse;
    let glossy = mix(sun.ground, sun.sky, mix(mirrored, up, surface.roughness)) * surface.f0;
    return (diffuse + glossy) * surface.occlusion / camera.exposure;
}

// Reflection of light, as a package: microfacets, Burley's diffuse lobe, a clear coat.
@publish import self::microfacet::{specular, Lobe};
import self::microfacet::{half_vector, schlick};
import numeric::{PI, square};

const MIN_ROUGHNESS = 0.045;

fn f0_of_reflectance(reflectance: f32) -> f32 { return 0.16 * square(reflectance); }

fn diffuse_burley(lobe: Lobe) -> f32 {
    let h = half_vector(lobe);
    let l_dot_h = saturate(dot(lobe.light, h));
    let f90 = 0.5 + 2.0 * lobe.roughness * square(l_dot_h);
    let from_light = schlick(saturate(dot(lobe.normal, lobe.light)), 1.0, f90);
    let from_view = schlick(abs(dot(lobe.normal, lobe.view)), 1.0, f90);
    return from_light * from_view / PI;
}

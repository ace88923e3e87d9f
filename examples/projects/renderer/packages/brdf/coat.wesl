// A clear coat over the surface, with a fixed index of refraction.
import super::microfacet::{Lobe, specular, half_vector, schlick};

const COAT_F0 = 0.04;

fn attenuation(lobe: Lobe, coat: f32) -> f32 {
    let cosine = saturate(dot(lobe.view, half_vector(lobe)));
    let kept = 1.0 - coat * schlick(cosine, COAT_F0, 1.0);
    return kept * kept;
}

fn lobe(base: Lobe, coat: f32, roughness: f32) -> vec3<f32> {
    let above = Lobe(base.normal, base.view, base.light, roughness);
    return coat * specular(above, vec3<f32>(COAT_F0));
}

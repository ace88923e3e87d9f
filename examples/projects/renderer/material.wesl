// From the factors and textures of a material to what light falls on.
import super::geometry::vertex::VertexOut;
import brdf::{f0_of_reflectance, MIN_ROUGHNESS};

struct Material {
    base_color: vec4<f32>,
    emissive: vec3<f32>,
    metallic: f32,
    roughness: f32,
    reflectance: f32,
    normal_scale: f32,
    alpha_cutoff: f32,
    coat: f32,
    @size(12) coat_roughness: f32,
}

struct Surface {
    diffuse: vec3<f32>,
    alpha: f32,
    f0: vec3<f32>,
    roughness: f32,
    normal: vec3<f32>,
    occlusion: f32,
    emissive: vec3<f32>,
    @if(ALPHA_TEST) cutoff: f32,
    @if(CLEAR_COAT) coat: f32,
    @if(CLEAR_COAT) coat_roughness: f32,
}

@group(1) @binding(0) var<storage, read> materials: array<Material>;
@group(1) @binding(1) var material_sampler: sampler;
@group(1) @binding(2) var base_color_map: texture_2d_array<f32>;
@group(1) @binding(3) var surface_map: texture_2d_array<f32>;
@if(NORMAL_MAP) @group(1) @binding(4) var normal_map: texture_2d_array<f32>;

@if(NORMAL_MAP)
fn mapped_normal(in: VertexOut, normal: vec3<f32>, scale: f32) -> vec3<f32> {
    let tangent = normalize(in.tangent.xyz - normal * dot(normal, in.tangent.xyz));
    let bitangent = cross(normal, tangent) * in.tangent.w;
    let texel = textureSample(normal_map, material_sampler, in.uv, in.material).xy * 2.0 - 1.0;
    let slope = texel * scale;
    let up = sqrt(max(1.0 - dot(slope, slope), 0.0));
    return normalize(mat3x3<f32>(tangent, bitangent, normal) * vec3<f32>(slope, up));
}

fn surface_of(in: VertexOut, front: bool) -> Surface {
    let material = &materials[in.material];
    let base = (*material).base_color * textureSample(base_color_map, material_sampler, in.uv, in.material);
    let packed = textureSample(surface_map, material_sampler, in.uv, in.material);
    var normal = normalize(in.normal) * select(-1.0, 1.0, front);
    @if(NORMAL_MAP) normal = mapped_normal(in, normal, (*material).normal_scale);
    let metallic = saturate((*material).metallic * packed.b);

    var out: Surface;
    out.diffuse = base.rgb * (1.0 - metallic);
    out.alpha = base.a;
    out.f0 = mix(vec3<f32>(f0_of_reflectance((*material).reflectance)), base.rgb, metallic);
    out.roughness = clamp((*material).roughness * packed.g, MIN_ROUGHNESS, 1.0);
    out.normal = normal;
    out.occlusion = packed.r;
    out.emissive = (*material).emissive;
    @if(ALPHA_TEST) out.cutoff = (*material).alpha_cutoff;
    @if(CLEAR_COAT) {
        out.coat = (*material).coat * packed.a;
        out.coat_roughness = clamp((*material).coat_roughness, MIN_ROUGHNESS, 1.0);
    }
    return out;
}

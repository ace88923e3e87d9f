// Entry points of a clustered forward renderer: the shaded pass, the depth pass of cascades, and the pass to the screen.
import package::frame::{camera, instances};
import package::geometry::{vertex::{VertexIn, VertexOut}, skin};
import package::material::{Surface, surface_of};
import package::lighting::{direct_light, ambient_light, cascade_matrix};
import package::screen::{Corner, corner, developed};
@if(FOG) import package::fog;
@if(SHADOWS && DEBUG_CASCADES) import package::lighting::cascade_tint;
@if(DEBUG_CLUSTERS) import package::lighting::cluster_tint;

diagnostic(off, derivative_uniformity);

@vertex
fn vs_main(in: VertexIn, @builtin(instance_index) index: u32) -> VertexOut {
    let instance = &instances[index];
    var model = (*instance).model;
    @if(SKINNING) {
        model = model * skin::blended(in.joints, in.weights);
    }
    let world = model * vec4<f32>(in.position, 1.0);
    var out: VertexOut;
    out.world = world.xyz;
    out.clip = camera.view_projection * world;
    out.depth = -(camera.view * world).z;
    out.normal = normalize((model * vec4<f32>(in.normal, 0.0)).xyz);
    out.uv = in.uv * (*instance).uv_scale + (*instance).uv_offset;
    @if(NORMAL_MAP) {
        let tangent = normalize((model * vec4<f32>(in.tangent.xyz, 0.0)).xyz);
        out.tangent = vec4<f32>(tangent, in.tangent.w);
    }
    out.material = (*instance).material;
    return out;
}

@fragment
fn fs_main(in: VertexOut, @builtin(front_facing) front: bool) -> @location(0) vec4<f32> {
    let surface: Surface = surface_of(in, front);
    @if(ALPHA_TEST) {
        if surface.alpha < surface.cutoff { discard; }
    }
    let view = normalize(camera.position - in.world);
    var color = ambient_light(surface, view) + direct_light(surface, view, in.world, in.depth, in.clip.xy) + surface.emissive;
    @if(FOG) color = fog::applied(color, camera.position, in.world);
    @if(SHADOWS && DEBUG_CASCADES) color *= cascade_tint(in.depth);
    @if(DEBUG_CLUSTERS) color = mix(color, cluster_tint(in.clip.xy, in.depth), 0.25);
    return vec4<f32>(color, surface.alpha);
}

struct DepthIn {
    @location(0) position: vec3<f32>,
    @if(SKINNING) @location(4) joints: vec4<u32>,
    @if(SKINNING) @location(5) weights: vec4<f32>,
}

override cascade: u32 = 0u;

@vertex
fn vs_depth(in: DepthIn, @builtin(instance_index) index: u32) -> @builtin(position) vec4<f32> {
    var model = instances[index].model;
    @if(SKINNING) model = model * skin::blended(in.joints, in.weights);
    @if(SHADOWS) return cascade_matrix(cascade) * model * vec4<f32>(in.position, 1.0);
    @else return camera.view_projection * model * vec4<f32>(in.position, 1.0);
}

@vertex
fn vs_screen(@builtin(vertex_index) index: u32) -> Corner {
    return corner(index);
}

@fragment
fn fs_screen(in: Corner) -> @location(0) vec4<f32> {
    return vec4<f32>(developed(in.uv), 1.0);
}

import light::shade;
@if(fog) import fog::fade;
@if(rain) import package::rain::streaks;

@fragment
fn fs_main(@location(0) normal: vec3f, @location(1) distance: f32) -> @location(0) vec4f {
    var color = shade(normal);
    @if(fog) color = fade(color, distance);
    @if(rain) color = streaks(color, distance);
    return vec4f(color, 1.0);
}

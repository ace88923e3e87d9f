/* What is hard to read: /* comments in comments */ template lists, numbers, names. */
// Imports in every form, with attributes.
import alone;
import {alone_too};
import package::a::one;
import self::two as second;
import super::super::three;
@publish import package::b::{four, five as fifth, c::{six, d::seven as eighth,}, e::f::g};
import {noise::fbm, palette::{cosine as wave, basis::bump}, };
import vendor/noise::fractal::{ridged};
import package::{nothing::{}};
import other::{};
@if(HIGH && !(LOW || MIDDLE)) import package::high::quality;
@elif(LOW) import package::low::quality;
@else import package::middle::quality;

// Directives.
enable f16;
enable f16, subgroups,;
@if(PACKED) requires packed_4x8_integer_dot_product;
requires readonly_and_readwrite_storage_textures, packed_4x8_integer_dot_product;
diagnostic(off, derivative_uniformity);
diagnostic(warning, vendor.rule,);

;
// Numbers of every form.
const whole = array(0, 0u, 0i, 1, 42i, 42u, 4294967295u, 0x0, 0X1f, 0xFFu, 0xaBi, 0x1e3, 0xffi);
const real = array(0f, 1f, 1h, 0.0, 1., .5, .5f, 1.5h, 01.5, 007.25, 1e3, 1e-3, 1E+3f, 2.e2, .25e-2h, 00e0);
const exact = array(0x1p-3, 0x1P+4f, 0x.8, 0x.8p1, 0x1.8, 0x1.p2h, 0xa.bcdp-1f, 0X1.fp0);

// Names of many scripts, and names beside words.
const Δλ_größe = 1;
const 変数 = Δλ_größe;
const имя_2 = 変数;
const été = 2;
const _x1 = été;
const iffy = letter + format + for_each + true_north;
const as_ = selfish::superb::packaged;

// Template lists and comparisons.
const c1 = i<n;
const c2 = g((a<b), c>d);
const c3 = g(a<b, (c>d));
const c4 = g(a<b,c>(d));
const c5 = (a<b)==(c>d);
const c6 = a<b && c>d;
const c7 = a<b || (c>d);
const c8 = a<=b;
const c9 = f(a<=b, c>=d);
const c10 = f(a<<b, c>>d);
const c11 = array<vec2<f32>,3>();
const c12 = a<b<c>>(d);
const c13 = vec4<f32>(1.0,2.0)>=vec4<f32>();
const c14 = x<y>(z) > w;
const c15 = a[i<n] + b[i>n];
const c16 = array<f32,(2>1)>();
const c17 = array<f32,select(1,2,a>b)>();
const c18 = array<f32, (1<<(2>>1))>();
const c19 = m::n::array<o::size, p::q<r::s,>,>();
const c20 = array<array<array<f32,2>,2>,2>();
const c21 = bitcast<vec4<u32>>(v).x;
const c22 = array /* a */ < /* b */ f32 /* c */ , 4 // d
    >();
const c23 = !(a < b);
const c24 = a < -b;
const c25 = (a)<b;
const c26 = ((a)<(b)) == true;
var<private> v1:vec2<f32>=vec2<f32>();
var<private>v2:array<vec2<f32>,2>=array<vec2<f32>,2>();
var<private> v3 : array<vec2<f32>, 2>= array(vec2<f32>(), vec2<f32>());
var < workgroup , > v4: array<atomic<u32>, 64>;
@group(0) @binding(0x1) var<storage, read_write,> v5: array<u32>;
@group(0,) @binding(2,) var<storage> v6: array<vec3<f32>>;
@group(0) @binding(3) var v7: texture_storage_2d<rgba8unorm, write>;
alias deep = ptr<function, array<vec4<f32>, 4>>;
alias far = package::geometry::mesh<f32>;

// Precedence.
const p1 = a + b * c - d / e % f;
const p2 = (a + b) * c;
const p3 = a - b - c;
const p4 = a - (b - c);
const p5 = -a * -b;
const p6 = - -a;
const p7 = -(-a);
const p8 = !!a == !b;
const p9 = ~(a | b) & c;
const p10 = a & b & c;
const p11 = a | b | c;
const p12 = a ^ b ^ c;
const p13 = (a & b) | (c ^ d);
const p14 = (a << 2u) + b;
const p15 = a + b == c - d;
const p16 = (a == b) == c;
const p17 = a == b && c != d && e <= f;
const p18 = a || b || (c && true);
const p19 = (a && b) || (c && d);
const p20 = a << (b + c);
const p21 = a.b.c[d][e].f;
const p22 = f(a)[b];
const p23 = (*p).x + (*q)[1];
const p24 = -a.b;
const p25 = &a[0];
const p26 = *p * *q;
const p27 = a & &b;
const p28 = vec2(1, 2).yx.xxxx;
const p29 = 1 - -1;
const p30 = ((((a))));
const p31 = f(g(h(), i(j,),),);

// Attributes in every place.
@id(7) override strength: f32 = .5;
@if(WIDE) @id(8) override width: u32 = 64u;
@else override width = 16u;
override count: u32;
@vendor const plain = 1;
@vendor() const empty = 1;
@vendor(a, b < c, d) const full = 1;
@must_use @const fn pure() -> u32 { return 1u; }

struct Vertex {
    @builtin(position) @invariant place: vec4<f32>,
    @location(0) @interpolate(flat) kind: u32,
    @location(1) @interpolate(perspective, centroid,) uv: vec2<f32>,
    @if(TANGENTS) @location(2) tangent: vec4<f32>,
    @size(16) @align(16,) padded: f32,
    @location(0) @blend_src(1) second: vec4<f32>
}
struct One { x: f32 }
struct None_ {}
;

@compute @workgroup_size(8, 8, 1,) @diagnostic(off, vendor.rule)
fn main(@builtin(global_invocation_id) id: vec3<u32>, @if(COUNTED) @builtin(num_workgroups) groups: vec3<u32>,) { }
@fragment fn shade(in: Vertex) -> @location(0) @if(X) vec4<f32> @diagnostic(info, derivative_uniformity) { return vec4<f32>(); }
@vertex fn place() -> @builtin(position) vec4f { return vec4f(); }
const_assert 1 < 2;
const_assert(true);
@if(CHECKED) const_assert width<=64u;

// Statements.
fn statements(p: ptr<function, u32>, q: package::types::thing<f32>) {
    ;
    { } { { ; } }
    @diagnostic(off, derivative_uniformity) { let x = 1; }
    let a = 1; var b: u32 = 2; var c: f32; const d = 3; var<function> e: u32;
    const_assert d == 3;
    _ = a; _ = f(a);
    b = 1; b += 1; b -= 1; b *= 1; b /= 1; b %= 1; b &= 1; b |= 1; b ^= 1; b <<= 1; b >>= 1;
    b++; b--; (b)++; *p = 1; (*p).x -= 1; *&b = 2;
    arr[i<n] = 1; arr[0][1].x >>= 2u; v.xy = vec2<f32>(); package::counters::total[0] += 1;
    f(); f(a, b < c,); package::a::f<f32>(a); workgroupBarrier();
    if a < b { } else if (a > b) { } else { }
    if (a) @diagnostic(off, x.y) { return; } @if(F) else if b { } @else else @vendor { };
    @if(F) if a { } @elif(G) if b { } @else if c { } else { }
    if a { } @if(F) return;
    switch a { default { } }
    switch (a) @vendor { case 1, 2u, { } case X, default: { break; } @if(F) case 3: { } default @vendor { } }
    switch a { case 1: { } case default { } }
    loop { break; }
    loop @vendor { if a { break; } continuing { b++; break if b>4u; } }
    loop { @if(F) f(); @else continuing @vendor { b++; @if(F) break if a; } }
    loop { continuing { } }
    for (;;) { break; }
    for (var i = 0u; i<n; i++) { continue; }
    for (i = 0; i < array<u32, 2>()[1]; i += 2) @vendor { }
    for (f(); ; f(1)) { }
    for (@if(F) let i = 0; ; @if(F) b--) { }
    while a < b { } while (true) @vendor { break; }
    @if(F) discard; @elif(G) return; @else { b = 2; }
    @if(F) let g = 1; @else let g = 2;
    @vendor(b) b = 3;
    return;
}
fn result(@vendor a: f32) -> array<vec2<f32>, 2> { return array<vec2<f32>, 2>(vec2<f32>(a), vec2<f32>()); }
// A comment up to the end of the file
//! Has the linked text in itself.

/// The text of the folder shaders/, as the build links it.
const SHADERS: &str = include_str!(concat!(env!("OUT_DIR"), "/shaders.wgsl"));

fn main() {
    print!("{SHADERS}");
}

#[cfg(test)]
mod tests {
    use super::SHADERS;

    #[test]
    fn the_build_links_what_is_reached() {
        assert!(SHADERS.contains("fn fs_main("));
        assert!(SHADERS.contains("fn package_light_shade("));
        assert!(SHADERS.contains("fn package_light_fog_fade("));
        assert!(!SHADERS.contains("unused"));
    }
}

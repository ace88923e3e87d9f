//! The calls of the C library.
use std::sync::atomic::{AtomicUsize, Ordering};

unsafe extern "C" {
    safe fn wesl_version() -> u32;

    fn wesl_link_bundle(
        bundle: *const u8,
        bundle_length: usize,
        buffer: *mut u8,
        buffer_length: usize,
        needed: *mut usize,
    ) -> u32;

    fn wesl_link_texts(
        bundle: *const u8,
        bundle_length: usize,
        buffer: *mut u8,
        buffer_length: usize,
        needed: *mut usize,
    ) -> u32;
}

/// A call that links a bundle.
type Link = unsafe extern "C" fn(*const u8, usize, *mut u8, usize, *mut usize) -> u32;

/// What the library answers to a bundle.
#[derive(Clone, Debug, PartialEq, Eq)]
pub struct Line {
    /// Whether the line is an answer, and not a fault.
    pub is_answer: bool,
    /// One line of JSON, with its line feed.
    pub text: String,
}

/// The longest line of this process, as far as it is known.
static LONGEST: AtomicUsize = AtomicUsize::new(0);

/// The version of the library: the three numbers of `0.1.0`.
pub fn library_version() -> (u32, u32, u32) {
    let version = wesl_version();
    (version / 10000, version / 100 % 100, version % 100)
}

/// Links the bundle of these bytes, and returns the whole line.
///
/// Only a bundle whose line is longer than all before, and than 65,536 bytes more than the bundle has twice, is linked a second
/// time.
pub fn link_line(bundle: &[u8]) -> Line {
    line_by(wesl_link_bundle, bundle)
}

/// The same of a bundle of texts, each unit of which is a JSON string: the shader text of its module.
pub fn link_texts_line(bundle: &[u8]) -> Line {
    line_by(wesl_link_texts, bundle)
}

/// The line that a call answers.
fn line_by(link: Link, bundle: &[u8]) -> Line {
    let room = (65536 + 2 * bundle.len()).max(LONGEST.load(Ordering::Relaxed));
    let mut line = vec![0; room];
    loop {
        let mut needed = 0;
        // SAFETY: a slice's pointer is never null and its length at most `isize::MAX`; the buffer and the length are
        // borrowed for this call alone, and lie apart.
        let status = unsafe { link(bundle.as_ptr(), bundle.len(), line.as_mut_ptr(), line.len(), &mut needed) };
        LONGEST.fetch_max(needed, Ordering::Relaxed);
        if needed <= line.len() {
            line.truncate(needed);
            line.shrink_to_fit();
            let text = String::from_utf8(line).expect("a line is UTF-8");
            return Line { is_answer: status == 0, text };
        }
        line.resize(needed, 0);
    }
}

//! The linker of WESL modules, by the C library `wesl`.
//!
//! A bundle of modules goes in as JSON text; the linked unit comes out, or the fault that stands in the way. The
//! repository's `docs/FORMAT.md` describes the bundle, the unit and the faults.
//!
//! ```
//! use baqrizen::{Kind, link};
//!
//! let bundle = r#"{"root":"package::main","keep":["size"],"modules":[{"path":"package::main",
//!     "unit":{"declarations":[{"k":"const","name":"size","init":{"k":"lit","text":"4"}}]}}]}"#;
//! let answer = link(bundle).unwrap();
//! assert!(!answer.clash);
//! assert_eq!(answer.unit, r#"{"declarations":[{"init":{"k":"lit","text":"4"},"k":"const","name":"size"}]}"#);
//!
//! let fault = link(r#"{"root":"package::main"}"#).unwrap_err();
//! assert_eq!(fault.kind, Kind::ModuleNotFound);
//! assert_eq!(fault.to_string(), "no module `package::main`: virtual module");
//! ```
mod answer;
mod fault;
mod json;
mod library;

pub use answer::{Answer, Item, TextAnswer};
pub use fault::{Fault, Kind};
pub use library::{Line, library_version, link_line, link_texts_line};

/// Links a bundle.
///
/// A unit whose names clash is an answer too: [`Answer::clash`] says so.
pub fn link(bundle: &str) -> Result<Answer, Fault> {
    let line = link_line(bundle.as_bytes());
    if line.is_answer { Answer::of_line(&line.text) } else { Err(Fault::of_line(&line.text)) }
}

/// Links a bundle of texts, each unit of which is a JSON string: the shader text of its module.
///
/// ```
/// let bundle = r#"{"root":"package::main","keep":["size"],"modules":[{"path":"package::main","unit":"const size=4;"}]}"#;
/// assert_eq!(baqrizen::link_texts(bundle).unwrap().text, "const size = 4;\n");
/// ```
pub fn link_texts(bundle: &str) -> Result<TextAnswer, Fault> {
    let line = link_texts_line(bundle.as_bytes());
    if line.is_answer { TextAnswer::of_line(&line.text) } else { Err(Fault::of_line(&line.text)) }
}

//! A plain reader of WESL: see README.md.
pub mod lexer;
pub mod parser;
pub mod tree;
pub mod words;

//! The examples of the repository, and what is told of them.
use baqrizen::{Answer, Item, Kind, library_version, link, link_line, link_texts, link_texts_line};
use std::fs;
use std::path::{Path, PathBuf};

/// The bundles of the folder examples/, each with its line.
fn examples() -> Vec<(PathBuf, Vec<u8>, String)> {
    examples_in("../../examples")
}

/// The bundles of a folder, each with its line.
fn examples_in(folder: &str) -> Vec<(PathBuf, Vec<u8>, String)> {
    let folder = Path::new(env!("CARGO_MANIFEST_DIR")).join(folder);
    let mut found = Vec::new();
    for entry in fs::read_dir(folder).unwrap() {
        let path = entry.unwrap().path();
        if path.extension().is_some_and(|ending| ending == "json") {
            let line = fs::read_to_string(path.with_extension("out")).unwrap();
            found.push((path.clone(), fs::read(path).unwrap(), line));
        }
    }
    found
}

/// The bundle of an example.
fn bundle_of(name: &str) -> String {
    let path = format!("{}/../../examples/{name}.json", env!("CARGO_MANIFEST_DIR"));
    fs::read_to_string(path).unwrap()
}

/// The bundle of a module of this name with many declarations, which the root imports.
fn long_bundle(module: &str, count: usize) -> String {
    let declarations: Vec<String> = (0..count).map(|index| format!(r#"{{"k":"const","name":"c{index}"}}"#)).collect();
    format!(
        r#"{{"root":"package::main","keep":["k"],"modules":[
            {{"path":"package::main","unit":{{
                "imports":[{{"path":"package::{module}","content":{{"item":"c0"}}}}],
                "declarations":[{{"k":"const","name":"k","init":"c0"}}]}}}},
            {{"path":"package::{module}","unit":{{"declarations":[{}]}}}}]}}"#,
        declarations.join(",")
    )
}

#[test]
fn every_example_has_its_line() {
    let examples = examples();
    assert!(examples.len() > 30);
    for (path, bundle, wanted) in examples {
        let line = link_line(&bundle);
        assert_eq!(line.text, wanted, "{}", path.display());
        assert_eq!(line.is_answer, !wanted.contains(r#""fault":"#), "{}", path.display());
    }
}

#[test]
fn every_line_is_read() {
    for (path, bundle, line) in examples() {
        match link(&String::from_utf8(bundle).unwrap()) {
            Ok(answer) => {
                assert!(line.starts_with(&format!(r#"{{"clash":{},"#, answer.clash)), "{}", path.display());
                assert!(line.ends_with(&format!("\"unit\":{}}}\n", answer.unit)), "{}", path.display());
                assert_eq!(answer.map.is_empty(), line.contains(r#""map":{}"#), "{}", path.display());
            }
            Err(fault) => {
                assert_ne!(fault.kind, Kind::UnknownLine, "{}", path.display());
                assert!(line.contains(&format!(r#""fault":"{}""#, fault.kind.name())), "{}", path.display());
                assert!(!fault.message.starts_with(fault.kind.name()), "{}", path.display());
            }
        }
    }
}

#[test]
fn an_answer_tells_its_names() {
    let Answer { clash, map, .. } = link(&bundle_of("two_modules")).unwrap();
    assert!(!clash);
    let two = Item { module: "package::util".into(), name: "two".into() };
    assert_eq!(map["package_util_two"], two);
    assert!(link(&bundle_of("clash")).unwrap().clash);
}

#[test]
fn a_fault_tells_what_and_where() {
    let fault = link(&bundle_of("fault_private")).unwrap_err();
    assert_eq!((fault.kind, fault.args), (Kind::Private, vec!["pi".into(), "package::prelude".into()]));
    assert_eq!(fault.message, "`package::prelude` imports `pi` and does not publish it");
    let fault = link(&bundle_of("fault_span")).unwrap_err();
    assert_eq!((fault.module.as_deref(), fault.span.clone()), (Some("package::m"), Some(4..5)));
    assert_eq!(fault.to_string(), "package::m: a condition is no formula of flags");
    assert_eq!(link("").unwrap_err().kind, Kind::NotJson);
}

#[test]
fn texts_are_linked_to_a_text() {
    let texts = examples_in("../../examples/texts");
    assert!(texts.len() > 1);
    for (path, bundle, wanted) in texts {
        let line = link_texts_line(&bundle);
        assert_eq!(line.text, wanted, "{}", path.display());
        match link_texts(&String::from_utf8(bundle).unwrap()) {
            Ok(answer) => assert!(line.is_answer && !answer.text.is_empty(), "{}", path.display()),
            Err(fault) => assert!(!line.is_answer && fault.kind != Kind::UnknownLine, "{}", path.display()),
        }
    }
    let fault = link_texts(r#"{"root":"package::m","modules":[{"path":"package::m","unit":"const k 1;"}]}"#).unwrap_err();
    assert_eq!((fault.kind, fault.span.clone()), (Kind::BadTree, Some(8..8)));
    assert_eq!(fault.to_string(), "package::m: expected `=`, found `1`");
}

#[test]
fn a_line_longer_than_the_first_buffer_is_whole() {
    let bundle = long_bundle(&"m".repeat(2000), 200);
    let answer = link(&bundle).unwrap();
    assert_eq!(answer.map.len(), 200);
    assert!(link_line(bundle.as_bytes()).text.len() > 65536 + 2 * bundle.len());
}

#[test]
fn the_library_has_the_version_of_the_header() {
    let header = fs::read_to_string(concat!(env!("CARGO_MANIFEST_DIR"), "/../../include/wesl.h")).unwrap();
    let (major, minor, patch) = library_version();
    assert!(header.contains(&format!("#define WESL_VERSION {}\n", major * 10000 + minor * 100 + patch)));
}

#[test]
fn threads_link_at_one_time() {
    let bundle = long_bundle("m", 100);
    let wanted = link(&bundle);
    std::thread::scope(|scope| {
        for _ in 0..4 {
            scope.spawn(|| (0..5).for_each(|_| assert_eq!(link(&bundle), wanted)));
        }
    });
}

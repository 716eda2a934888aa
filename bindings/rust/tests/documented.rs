//! Every public item of this crate has a comment with an example, which `cargo test` runs.

/// The public items of a source that have no example in the comment before them, by the line that begins each.
/// Attributes may stand between.
fn without_example(source: &str) -> Vec<&str> {
    let mut found = Vec::new();
    let mut has_example = false;
    for line in source.lines().map(str::trim_start) {
        if line.starts_with("///") {
            has_example |= line.starts_with("/// ```");
        } else if !line.starts_with("#[") {
            if is_public(line) && !has_example {
                found.push(line);
            }
            has_example = false;
        }
    }
    found
}

/// Fields and re-exports are no items of their own.
fn is_public(line: &str) -> bool {
    let kinds = [
        "const ", "fn ", "struct ", "enum ", "trait ", "type ", "static ", "mod ", "unsafe ",
        "macro ",
    ];
    line.strip_prefix("pub ")
        .is_some_and(|rest| kinds.iter().any(|kind| rest.starts_with(kind)))
}

/// The files whose items the crate hands on. `raw` and `messages` have none that are public outside.
fn sources() -> Vec<(String, String)> {
    let folder = concat!(env!("CARGO_MANIFEST_DIR"), "/src");
    let files = std::fs::read_dir(folder).expect("the sources");
    let paths = files.map(|file| file.expect("a file").path());
    let named = paths.map(|path| {
        let name = path
            .file_stem()
            .expect("a name")
            .to_string_lossy()
            .into_owned();
        (name, std::fs::read_to_string(path).expect("a source"))
    });
    named
        .filter(|(name, _)| name != "raw" && name != "messages")
        .collect()
}

#[test]
fn every_public_item_has_an_example() {
    let sources = sources();
    let items = sources
        .iter()
        .flat_map(|(_, source)| source.lines())
        .filter(|line| is_public(line.trim_start()));
    assert!(items.count() > 70);
    for (name, source) in sources {
        assert_eq!(without_example(&source), [""; 0], "{name}.rs");
    }
}

/// What the test above would say of items without one.
#[test]
fn an_item_without_an_example_is_found() {
    let source = "/// Words.\n/// ```\n/// ```\n#[derive(Debug)]\npub enum Kind {\n    Header,\n}\n\
                  /// Words alone.\npub const TAG: usize = 4;\npub(crate) fn lent() {}\n    pub fn new() {}\n";
    assert_eq!(
        without_example(source),
        ["pub const TAG: usize = 4;", "pub fn new() {}"]
    );
}

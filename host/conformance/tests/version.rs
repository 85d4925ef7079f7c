//! Header, workspace and changelog name one version.

const WORKSPACE: &str = env!("CARGO_PKG_VERSION");

/// What stands after this in the first line that begins with it.
fn after<'a>(text: &'a str, start: &str) -> &'a str {
    let mut rests = text.lines().filter_map(|line| line.strip_prefix(start));
    rests.next().expect(start)
}

#[test]
fn of_the_header() {
    let header = include_str!("../../../include/tigbayon.h");
    let parts = ["MAJOR", "MINOR", "PATCH"];
    let parts = parts.map(|part| after(header, &format!("#define TB_VERSION_{part} ")));
    assert_eq!(parts.join("."), WORKSPACE);
}

/// A heading is `## VERSION, DATE`, the newest first.
#[test]
fn of_the_changelog() {
    let changelog = include_str!("../../../CHANGELOG.md");
    let (version, _) = after(changelog, "## ").split_once(", ").expect("a date");
    assert_eq!(version, WORKSPACE);
}

/// The workspace has no outside crates: those of its lock are its own.
#[test]
fn of_every_member() {
    let lock = include_str!("../../Cargo.lock");
    let (_, packages) = lock.split_once("[[package]]").expect("packages");
    let mut versions = packages
        .split("[[package]]")
        .map(|p| after(p, "version = "));
    assert!(versions.all(|version| version == format!("{WORKSPACE:?}")));
}

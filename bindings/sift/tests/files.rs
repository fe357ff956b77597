//! Files are written whole or not at all, and not over others.

mod common;

use common::{directory, names, one_pel, sift};
use std::fs;
use std::path::Path;

const PAGE: &[u8] = b"P4\n1 1\n\0";

fn save(dir: &Path, name: &str, bytes: &[u8]) {
    fs::write(dir.join(name), bytes).expect("a file");
}

fn load(dir: &Path, name: &str) -> Vec<u8> {
    fs::read(dir.join(name)).expect("a file")
}

#[test]
fn a_packed_file_is_replaced_by_force_alone() {
    let dir = directory("force_pack");
    save(&dir, "a.pbm", PAGE);
    save(&dir, "f", b"dear");
    let said = "sift: f: the file is there already; --force replaces it";
    sift(&dir, &["pack", "a.pbm", "-o", "f"], b"").refused(1, &[said]);
    assert_eq!(load(&dir, "f"), b"dear");
    // not even by force before the last page is in
    let words = ["pack", "a.pbm", "-", "-o", "f", "--force"];
    assert_eq!(sift(&dir, &words, b"P4 3000 1 ").status, 1);
    assert_eq!(load(&dir, "f"), b"dear");
    sift(&dir, &["pack", "a.pbm", "-o", "f", "--force"], b"").fine();
    assert_eq!(load(&dir, "f"), one_pel(b"a.pbm"));
    assert_eq!(names(&dir), ["a.pbm", "f"]);
}

#[test]
fn a_page_is_not_replaced_by_its_own_file() {
    let dir = directory("force_self");
    save(&dir, "a.pbm", PAGE);
    let said = "sift: a.pbm: it is the output too";
    let words = ["pack", "a.pbm", "-o", "./a.pbm", "--force"];
    sift(&dir, &words, b"").refused(1, &[said]);
    assert_eq!(load(&dir, "a.pbm"), PAGE);
}

#[cfg(unix)]
#[test]
fn a_replaced_file_leaves_its_permissions() {
    use std::os::unix::fs::PermissionsExt;
    let dir = directory("force_mode");
    save(&dir, "a.pbm", PAGE);
    save(&dir, "f", b"dear");
    let secret = fs::Permissions::from_mode(0o600);
    fs::set_permissions(dir.join("f"), secret).expect("permissions");
    sift(&dir, &["pack", "a.pbm", "-o", "f", "--force"], b"").fine();
    let mode = fs::metadata(dir.join("f")).expect("a file").permissions();
    assert_eq!(mode.mode() & 0o777, 0o600);
}

#[test]
fn pages_are_replaced_by_force_alone() {
    let dir = directory("force_unpack");
    save(&dir, "a.pbm", PAGE);
    save(&dir, "b.pbm", PAGE);
    sift(&dir, &["pack", "a.pbm", "b.pbm", "-o", "f"], b"").fine();
    fs::create_dir(dir.join("d")).expect("a directory");
    save(&dir, "d/b.pbm", b"dear");
    let said = "sift: d/b.pbm: the file is there already; --force replaces it";
    sift(&dir, &["unpack", "f", "-o", "d"], b"").refused(1, &[said]);
    // the page before it was not written either
    assert_eq!(names(&dir.join("d")), ["b.pbm"]);
    assert_eq!(load(&dir, "d/b.pbm"), b"dear");
    sift(&dir, &["unpack", "f", "-o", "d", "--force"], b"").fine();
    assert_eq!(names(&dir.join("d")), ["a.pbm", "b.pbm"]);
    assert_eq!(load(&dir, "d/b.pbm"), PAGE);
}

#[test]
fn what_is_no_plain_file_is_never_replaced() {
    let dir = directory("no_file");
    save(&dir, "a.pbm", PAGE);
    fs::create_dir(dir.join("d")).expect("a directory");
    let said = "sift: d: something that is no plain file is there";
    for words in [
        &["pack", "a.pbm", "-o", "d"][..],
        &["pack", "a.pbm", "-o", "d", "--force"],
    ] {
        sift(&dir, words, b"").refused(1, &[said]);
    }
    assert_eq!(names(&dir), ["a.pbm", "d"]);
}

#[cfg(unix)]
#[test]
fn a_link_is_not_followed() {
    let dir = directory("link");
    save(&dir, "dear", b"dear");
    fs::create_dir(dir.join("d")).expect("a directory");
    std::os::unix::fs::symlink("../dear", dir.join("d/a.pbm")).expect("a link");
    let said = "sift: d/a.pbm: something that is no plain file is there";
    let words = ["unpack", "-", "-o", "d", "--force"];
    sift(&dir, &words, &one_pel(b"a.pbm")).refused(1, &[said]);
    assert_eq!(load(&dir, "dear"), b"dear");
}

#[test]
fn outputs_that_cannot_be_made() {
    let dir = directory("outputs");
    save(&dir, "a.pbm", PAGE);
    for (words, place) in [
        (&["pack", "a.pbm", "-o", "none/f"][..], "none/f"),
        (&["pack", "a.pbm", "-o", "a.pbm/f"], "a.pbm/f"),
        (&["unpack", "-", "-o", "a.pbm"], "a.pbm"),
    ] {
        let ran = sift(&dir, words, &one_pel(b"x"));
        assert_eq!(ran.status, 1);
        let named = format!("sift: {place}: ");
        assert!(ran.stderr.starts_with(&named), "{}", ran.stderr);
        assert_eq!(ran.stderr.lines().count(), 1);
    }
    assert_eq!(names(&dir), ["a.pbm"]);
}

#[test]
fn a_directory_is_made_with_those_above_it() {
    let dir = directory("above");
    let words = ["unpack", "-", "-o", "d/e/f", "--quiet"];
    sift(&dir, &words, &one_pel(b"x.pbm")).fine();
    assert_eq!(load(&dir, "d/e/f/x.pbm"), PAGE);
}

#[cfg(target_os = "linux")]
#[test]
fn a_full_disk_is_noticed() {
    let dir = directory("full");
    save(&dir, "f", &one_pel(b"x.pbm"));
    for words in [
        &["unpack", "f", "-o", "-"][..],
        &["show", "f"],
        &["look", "f"],
        &["--help"],
    ] {
        let full = fs::OpenOptions::new().write(true).open("/dev/full");
        let output = std::process::Command::new(env!("CARGO_BIN_EXE_sift"))
            .args(words)
            .current_dir(&dir)
            .stdout(full.expect("the full device"))
            .output()
            .expect("the program");
        assert_eq!(output.status.code(), Some(1));
        let said = String::from_utf8(output.stderr).expect("text");
        assert!(said.starts_with("sift: standard output: "), "{said}");
    }
}

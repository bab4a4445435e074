//! What a person reads names the limit that a host is given: the pages, the manual and the launcher's help.

use fannavy::LIMIT;
use std::fs;
use std::path::Path;

#[test]
fn the_pages_name_the_limit() {
    let root = Path::new(env!("CARGO_MANIFEST_DIR")).join("../..");
    let over = LIMIT + 1;
    for (page, words) in [
        ("README.md", format!("A word over {LIMIT} bytes,")),
        (
            "docs/DIFFERENCES.md",
            format!("| words over {LIMIT} bytes | {over} letters a |"),
        ),
        (
            "docs/EDITORS.md",
            format!("`!` and a number, and nothing of the word: 1, longer than {LIMIT} bytes;"),
        ),
        (
            "docs/stemlist.1",
            format!("\n.TP\n.B 1\nover {LIMIT} bytes\n"),
        ),
        ("stemlist", format!("1 over {LIMIT} bytes,")),
        (
            "libexec/clashes",
            format!("why[1] = \"over {LIMIT} bytes\""),
        ),
    ] {
        let text = fs::read_to_string(root.join(page)).expect(page);
        assert!(text.contains(&words), "{page} does not say: {words}");
    }
}

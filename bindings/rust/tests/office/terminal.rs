//! Readers that go away, full outputs, colours and the progress line.

use crate::desk::{Desk, Ran};
use snoekeldraf::Suite;

/// A reader that goes away is no error, and the exit status is still that of the whole work.
#[test]
fn a_reader_that_goes_away_is_no_error() {
    let desk = Desk::new("head");
    let files = "day.shift ".repeat(2_000);
    for line in ["list", "list --csv", "list --json"] {
        let ran = desk.shell(&format!("$program {line} {files} | head -1 > /dev/null; echo ${{PIPESTATUS[0]}}"));
        assert_eq!(ran.done(), "0\n");
    }
    let ran =
        desk.shell(&format!("$program verify {files} missing --ring ring.keys | head -1; echo ${{PIPESTATUS[0]}}"));
    assert_eq!(
        (&ran.out[..], ran.err.contains("missing cannot be read")),
        ("day.shift: 8 entries, verified\n3\n", true)
    );
    assert!(!ran.err.contains("pipe"), "{}", ran.err);
}

#[test]
fn an_output_that_cannot_be_written_is_an_error() {
    let desk = Desk::new("full-output");
    desk.shell("$program list day.shift > /dev/full")
        .ended(3, &["the standard output cannot be written: No space left on device"]);
    desk.shell("$program --help > /dev/full").ended(3, &["No space left"]);
    // with closed outputs the exit status is still right
    assert_eq!(desk.shell("$program verify day.shift --ring ring.keys >&-").status, Some(0));
    assert_eq!(desk.shell("$program verify day.draft --ring ring.keys >&- 2>&-").status, Some(1));
}

/// What a person sees on a terminal.
fn on_terminal(desk: &Desk, variables: &str, line: &str) -> String {
    let line = format!("TERM=xterm {variables} script -qec \"$program {line}\" /dev/null; true");
    let ran: Ran = desk.shell_command(&line).output().unwrap().into();
    ran.out
}

#[test]
fn colours_on_a_terminal_only_and_not_with_no_color() {
    let desk = Desk::new("colours");
    let line = "verify day.shift day.draft --ring ring.keys";
    let coloured = on_terminal(&desk, "", line);
    assert!(coloured.contains("8 entries, \u{1b}[32mverified\u{1b}[0m"), "{coloured}");
    assert!(coloured.contains("day.draft: \u{1b}[1;31mREFUSED\u{1b}[0m"), "{coloured}");
    for variables in ["NO_COLOR=1", "TERM=dumb"] {
        let plain = on_terminal(&desk, variables, line);
        assert!(plain.contains("8 entries, verified") && !plain.contains('\u{1b}'), "{plain}");
    }
    assert!(on_terminal(&desk, "NO_COLOR=", line).contains("\u{1b}[32m"));
    assert!(!desk.call(line).out.contains('\u{1b}'));
}

#[test]
fn long_work_shows_how_far_it_is() {
    let desk = Desk::new("progress");
    desk.draft("a.draft", Suite::Cham128, &[60_000; 17]);
    desk.call("seal a.draft a.shift --ring ring.keys").done();
    let line = format!("verify {} --ring ring.keys", ["a.shift"; 100].join(" "));
    let shown = on_terminal(&desk, "", &line);
    assert!(shown.contains(" of 100 files"), "{shown}");
    assert_eq!(shown.matches("17 entries").count(), 100);
    assert!(!desk.call(&line).done().contains(" of 100 files"));
}

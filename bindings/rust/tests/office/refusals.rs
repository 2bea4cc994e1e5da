//! What is said where a file, a ring or a call is wrong, and how the run ends.

use crate::desk::{is_root, Desk, AS_NOBODY};
use snoekeldraf::{FileBuilder, FileEntry, Suite};
use std::fs::File;

/// A mistyped path is not a supplier's bad file.
#[test]
fn what_cannot_be_read_is_said_in_the_systems_words() {
    let desk = Desk::new("unread");
    for (line, words) in [
        ("list missing", "missing cannot be read: No such file or directory"),
        ("list .", ". cannot be read: Is a directory"),
        ("list day.shift/x", "day.shift/x cannot be read: Not a directory"),
        ("list day.shift --ring missing", "missing cannot be read: No such file or directory"),
        ("verify day.shift --ring .", ". cannot be read: Is a directory"),
        ("seal missing out --ring ring.keys", "missing cannot be read: No such file"),
        ("draft missing out", "missing cannot be read: No such file"),
    ] {
        desk.call(line).ended(3, &[words]);
    }
    desk.set_mode("day.shift", 0o000);
    let without_rights = if is_root() { AS_NOBODY } else { "" };
    desk.set_mode(".", 0o755);
    desk.shell(&format!("{without_rights} $program list day.shift"))
        .ended(3, &["day.shift cannot be read: Permission denied"]);
}

#[test]
fn a_length_is_said_in_bytes() {
    let desk = Desk::new("lengths");
    desk.write("short", b"1234567");
    desk.call("list short").ended(1, &["status 20", "short has 7 bytes."]);
    File::create(desk.path("huge")).unwrap().set_len(5_000_000_000).unwrap();
    desk.call("list huge").ended(1, &["status 20", "huge has more than 1,048,576 bytes."]);
    desk.call("verify /dev/zero --ring ring.keys").ended(1, &["/dev/zero has more than 1,048,576 bytes."]);
    desk.call("list /dev/null").ended(1, &["/dev/null has 0 bytes."]);
    desk.write("short.keys", [0; 255]);
    desk.call("verify day.shift --ring short.keys")
        .ended(1, &["short.keys: ", "256 bytes", "status 2", "it has 255 bytes"]);
    desk.call("verify day.shift --ring day.shift").ended(1, &["day.shift: ", "status 2", "it has more than 256 bytes"]);
}

#[test]
fn an_edition_is_said_by_what_the_command_takes() {
    let desk = Desk::new("editions");
    for (line, words) in [
        ("list day.draft", "takes edition 1 or 2 (of a draft, edition 0, `snoekeldraf seal`"),
        ("seal day.shift out --ring ring.keys", "takes edition 0, a draft"),
        ("unseal stations.shift out --ring ring.keys", "takes edition 1 (`snoekeldraf convert --to 1`"),
        ("convert stations.shift out --to 2", "takes edition 1 with --to 2"),
        ("convert day.shift out --to 1", "takes edition 2 with --to 1"),
    ] {
        desk.call(line).ended(1, &["status 21", words]);
        assert!(!desk.path("out").exists());
    }
}

/// The job beside the row, also where the file's table is wrong, and what to do next.
#[test]
fn a_row_is_said_with_its_job() {
    let desk = Desk::new("rows");
    let suite_of_row_2 = 8 + 32 * 2 + 4;
    let mut day = desk.read("day.shift");
    day[suite_of_row_2] = 9;
    desk.write("bad.shift", &day);
    desk.call("list bad.shift").ended(1, &["(status 26, row 2, job 4103)"]);
    let mut draft = desk.read("day.draft");
    draft[suite_of_row_2] = 4;
    desk.write("old.draft", &draft);
    desk.call("seal old.draft out --ring ring.keys")
        .ended(1, &["(status 10, row 2, job 4103)", "`snoekeldraf reseal`"]);
    let last = draft.len() - 1;
    draft[last] = 1;
    desk.write("tagged.draft", &draft);
    desk.call("seal tagged.draft out --ring ring.keys")
        .ended(1, &["(status 33, row 6, job 4211)", "`snoekeldraf unseal` makes one"]);
    desk.call("convert stations.shift out --to 1")
        .ended(1, &["the row's station is not 0 (status 35, row 0, job 4101)", "keep the file in edition 2"]);
    let mut twice = desk.read("day.shift");
    let (first, second) = (8 + 32 * 2, 8 + 32 * 4); // both of suite 3 and key 2; a row's nonce is its last 16 bytes
    twice.copy_within(first + 16..first + 32, second + 16);
    desk.write("twice.shift", &twice);
    desk.call("list twice.shift").ended(1, &["(status 29, row 4, job 4110)", "Do not use this file"]);
    let mut builder = FileBuilder::edition1();
    for (job, suite) in [(7u32, Suite::Speck64), (9, Suite::Cham64)] {
        let ad = [&job.to_le_bytes()[..], &[1]].concat();
        let (nonce, tag) = (&[1; 15], &[0; 8]);
        builder.push(FileEntry { job, station: 0, suite, key_number: 2, nonce, ad: &ad, text: b"", tag });
    }
    desk.write("resealed.shift", builder.finish().unwrap());
    desk.call("reseal resealed.shift out --ring ring.keys").ended(
        1,
        &["(status 29, row 1, job 9)", "Resealed as suite 3, this entry and another would have one key and nonce"],
    );
    let day = desk.read("day.shift");
    desk.write("cut.shift", &day[..day.len() - 1]);
    desk.call("list cut.shift").ended(1, &["(status 23)", "Copy or send the file again"]);
    let mut wrong = desk.read("day.shift");
    let last = wrong.len() - 1;
    wrong[last] ^= 1;
    desk.write("wrong.shift", &wrong);
    desk.call("unseal wrong.shift out --ring ring.keys")
        .ended(1, &["(status 8, row 7, job 4211)", "Do not use this entry"]);
    assert!(!desk.path("out").exists());
}

#[test]
fn wrong_calls_are_explained() {
    let desk = Desk::new("calls");
    for (line, words) in [
        ("", "there is no command \"\""),
        ("lst", "there is no command lst; there are: list, verify"),
        ("list", "at least 1 argument needed, 0 given"),
        ("verify day.shift", "--ring is missing"),
        ("verify --ring", "--ring needs a value"),
        ("list day.shift --ring a --ring b", "--ring is given twice"),
        ("list day.shift --xml", "there is no option --xml"),
        ("list day.shift --csv --json", "exclude each other"),
        ("list day.shift --csv=1", "--csv takes no value"),
        ("open day.shift x --ring ring.keys", "x is no job: a job is a number from 0 to 4294967295"),
        ("open day.shift 4294967296 --ring ring.keys", "4294967296 is no job"),
        ("open day.shift +1 --ring ring.keys", "+1 is no job"),
        ("convert back stations.shift", "--to is missing"),
        ("convert stations.shift --to 1", "2 arguments needed, 1 given"),
        ("convert day.shift out --to 3", "1 or 2"),
        ("seal day.draft ring.keys", "--ring is missing"),
        ("completion tcsh", "bash, zsh and fish"),
    ] {
        let ran = desk.call(line).ended(2, &[words]);
        assert_eq!(ran.out, "");
    }
    let ran = desk.shell("$program").ended(2, &["usage: snoekeldraf COMMAND"]);
    assert_eq!(ran.out, "");
}

#[test]
fn options_stand_anywhere_and_files_may_begin_with_a_dash() {
    let desk = Desk::new("dashes");
    desk.write("--csv", desk.read("day.shift"));
    desk.write("-", desk.read("day.shift"));
    let listed = desk.call("list --ring=ring.keys -- --csv").done();
    assert!(listed.starts_with("--csv: edition 1"));
    assert!(desk.call("list - --ring ring.keys").done().starts_with("-: edition 1"));
    assert!(desk.call("list -- --help").ended(3, &["--help cannot be read"]).out.is_empty());
}

#[test]
fn help_and_version() {
    let desk = Desk::new("help");
    assert!(desk.call("--version").done().starts_with(concat!(
        "snoekeldraf ",
        env!("CARGO_PKG_VERSION"),
        " (library "
    )));
    let overview = desk.call("--help").done();
    let commands = "list verify open current diff draft seal unseal reseal convert completion";
    for command in commands.split(' ') {
        assert!(overview.contains(&format!("\n  {command} ")), "{command}");
        let help = desk.call(&format!("{command} --help")).done();
        assert!(help.starts_with(&format!("usage: snoekeldraf {command} ")), "{help}");
        assert!(help.contains("Exit status"));
        assert!(help.split("\n\n").nth(1).unwrap().lines().count() > 1, "only the summary: {help}");
        assert_eq!(help, desk.call(&format!("help {command}")).done());
        assert!(help.lines().chain(overview.lines()).all(|line| line.chars().count() <= 80), "{help}");
    }
}

/// Every command and every option of its help is in the man page and in each completion.
#[test]
fn man_page_and_completions_have_every_option() {
    let desk = Desk::new("pages");
    let man = std::fs::read_to_string("../../docs/snoekeldraf.1").unwrap().replace("\\-", "-");
    let scripts = ["bash", "zsh", "fish"].map(|shell| desk.call(&format!("completion {shell}")).done());
    for command in "list verify open current diff draft seal unseal reseal convert completion".split(' ') {
        assert!(man.contains(&format!("\n.BR {command}")) || man.contains(&format!("\n.B {command}")), "{command}");
        assert!(scripts.iter().all(|script| script.contains(command)));
        for word in
            desk.call(&format!("help {command}")).done().split_whitespace().filter(|word| word.starts_with("--"))
        {
            let option = word.trim_matches(|character: char| !character.is_ascii_lowercase());
            assert!(man.contains(&format!("--{option}")), "{option} is not in the man page");
            assert!(scripts.iter().all(|script| script.contains(option)), "{option} is not completed");
        }
    }
    let completed = desk.shell(
        "source <($program completion bash); COMP_WORDS=(snoekeldraf list --r); COMP_CWORD=2; _snoekeldraf; echo \"${COMPREPLY[@]}\"",
    );
    assert_eq!(completed.done(), "--ring\n");
}

//! `seal`, `unseal`, `reseal` and `convert`: OUT is there whole or not at all, and nothing else is touched.

use crate::desk::{is_root, Desk, AS_NOBODY};
use std::fs;
use std::os::unix::fs::{chown, symlink, MetadataExt};
use std::thread;

#[test]
fn a_day_is_sealed_and_given_back() {
    let desk = Desk::new("day");
    desk.call("seal day.draft out.shift --ring ring.keys").done();
    desk.call("verify out.shift --ring ring.keys").done();
    desk.call("unseal out.shift back.draft --ring ring.keys").done();
    assert_eq!(desk.read("back.draft"), desk.read("day.draft"));
    desk.call("reseal day.shift new.shift --ring ring.keys").done();
    assert!(desk
        .call("list new.shift --ring ring.keys --csv")
        .done()
        .contains("new.shift,4105,inch-pounds,true,,3,3,50,verified"));
    desk.call("convert day.shift two.shift --to 2").done();
    desk.call("convert two.shift one.shift --to 1").done();
    assert_eq!(desk.read("one.shift"), desk.read("day.shift"));
    assert!(desk.left_over().is_empty());
}

#[test]
fn out_may_be_the_input() {
    let desk = Desk::new("in-place");
    let day = desk.read("day.shift");
    desk.call("convert day.shift day.shift --to 2").done();
    assert_eq!(desk.read("day.shift")[0], 2);
    desk.call("convert day.shift day.shift --to 1").done();
    assert_eq!(desk.read("day.shift"), day);
    desk.call("seal day.draft day.draft --ring ring.keys").done();
    desk.call("verify day.draft --ring ring.keys").done();
}

/// The ring under any name: itself, a link, another name of the same file.
#[test]
fn out_may_not_be_the_ring() {
    let desk = Desk::new("ring");
    let ring = desk.read("ring.keys");
    symlink("ring.keys", desk.path("link")).unwrap();
    fs::hard_link(desk.path("ring.keys"), desk.path("other")).unwrap();
    for out in ["ring.keys", "./ring.keys", "link", "other"] {
        for call in ["seal day.draft", "unseal day.shift", "reseal day.shift"] {
            desk.call(&format!("{call} {out} --ring ring.keys")).ended(2, &["is the ring: it is not overwritten"]);
        }
        desk.call(&format!("seal day.draft ring.keys --ring {out}")).ended(2, &["is the ring"]);
    }
    assert_eq!(desk.read("ring.keys"), ring);
}

/// The whole format: no command makes a file that another cannot read.
#[test]
fn files_of_every_length_of_the_format() {
    let desk = Desk::new("whole");
    for (bytes, rows) in [(524_288, 512), (1_046_528, 512), (1_048_576, 17), (1_048_576, 512)] {
        let draft = desk.draft_of("a.draft", bytes, rows);
        desk.call("seal a.draft a.shift --ring ring.keys").done();
        desk.call("verify a.shift --ring ring.keys").done();
        desk.call("unseal a.shift back.draft --ring ring.keys").done();
        assert!(desk.read("back.draft") == draft);
        desk.call("reseal a.shift a.shift --ring ring.keys").done();
        let moved = desk.call("convert a.shift two.shift --to 2");
        if bytes + 4 * rows > 1_048_576 {
            moved.ended(1, &["status 20", "moved form is longer than 1,048,576 bytes"]);
            continue;
        }
        moved.done();
        assert_eq!(desk.read("two.shift").len(), bytes + 4 * rows);
        desk.call("verify two.shift --ring ring.keys").done();
        desk.call("convert two.shift two.shift --to 1").done();
        assert!(desk.read("two.shift") == desk.read("a.shift"));
    }
}

/// A link is followed: the file that it leads to is replaced, and the link stays.
#[test]
fn a_link_is_never_replaced() {
    let desk = Desk::new("links");
    fs::create_dir(desk.path("store")).unwrap();
    desk.write("store/real", b"old");
    symlink("store/real", desk.path("near")).unwrap();
    symlink(desk.path("near"), desk.path("far")).unwrap();
    desk.call("seal day.draft far --ring ring.keys").done();
    assert!(["near", "far"].iter().all(|link| fs::symlink_metadata(desk.path(link)).unwrap().is_symlink()));
    assert!(fs::symlink_metadata(desk.path("store/real")).unwrap().is_file());
    desk.call("verify store/real --ring ring.keys").done();
    // one that leads to nothing yet
    symlink("store/new", desk.path("dangling")).unwrap();
    desk.call("seal day.draft dangling --ring ring.keys").done();
    desk.call("verify store/new --ring ring.keys").done();
    assert!(fs::symlink_metadata(desk.path("dangling")).unwrap().is_symlink());
    // and one that leads round
    symlink("round", desk.path("round")).unwrap();
    desk.call("seal day.draft round --ring ring.keys")
        .ended(3, &["round cannot be written: Too many levels of symbolic links"]);
}

/// What /dev/stdout leads to: a pipe, a file, a file that is added to.
#[test]
fn the_standard_output_is_written_as_it_is() {
    let desk = Desk::new("stdout");
    desk.call("seal day.draft sealed --ring ring.keys").done();
    symlink("/proc/self/fd/1", desk.path("stdout")).unwrap();
    symlink("stdout", desk.path("link")).unwrap();
    desk.write("log", b"before");
    let line = "$program seal day.draft link --ring ring.keys";
    desk.shell(&format!("{line} | cat > piped; {line} > file; {line} >> log; {line} 2>&1 >&- | cat; exit 0")).done();
    assert_eq!(desk.read("piped"), desk.read("sealed"));
    assert_eq!(desk.read("file"), desk.read("sealed"));
    assert_eq!(desk.read("log"), [b"before", &desk.read("sealed")[..]].concat());
    assert!(["stdout", "link"].iter().all(|link| fs::symlink_metadata(desk.path(link)).unwrap().is_symlink()));
    desk.shell("$program seal day.draft /dev/stdout --ring ring.keys | cat > again").done();
    assert_eq!(desk.read("again"), desk.read("sealed"));
    assert!(fs::symlink_metadata("/dev/stdout").unwrap().is_symlink());
}

#[test]
fn a_named_pipe_is_written_whole() {
    let desk = Desk::new("pipe");
    desk.draft_of("a.draft", 1_048_576, 17);
    desk.call("seal a.draft sealed --ring ring.keys").done();
    desk.shell("mkfifo pipe").done();
    for _ in 0..12 {
        let pipe = desk.path("pipe");
        let reader = thread::spawn(move || fs::read(pipe).unwrap());
        desk.call("seal a.draft pipe --ring ring.keys").done();
        assert!(reader.join().unwrap() == desk.read("sealed"));
    }
    // a reader that does not take everything
    let pipe = desk.path("pipe");
    let reader = thread::spawn(move || fs::File::open(pipe).map(drop).unwrap());
    desk.call("seal a.draft pipe --ring ring.keys").ended(3, &["pipe cannot be written: Broken pipe"]);
    reader.join().unwrap();
}

/// A full device, a file that may not grow, a folder without rights, a folder as OUT: the old OUT stays.
#[test]
fn a_failed_write_keeps_the_old_file() {
    let desk = Desk::new("full");
    desk.call("seal day.draft /dev/full --ring ring.keys")
        .ended(3, &["/dev/full cannot be written: No space left on device"]);
    assert!(!fs::metadata("/dev/full").unwrap().is_file());
    desk.draft_of("a.draft", 65_536, 9);
    desk.write("out", b"old");
    let ran = desk.shell("ulimit -f 16; $program seal a.draft out --ring ring.keys");
    ran.ended(3, &["out cannot be written: File too large"]);
    desk.call("seal day.draft . --ring ring.keys").ended(3, &[". cannot be written: Is a directory"]);
    desk.call("seal day.draft no/out --ring ring.keys")
        .ended(3, &["no/out cannot be written: No such file or directory"]);
    desk.call("seal day.draft out/x --ring ring.keys").ended(3, &["out/x cannot be written: Not a directory"]);
    desk.call("seal missing out --ring ring.keys").ended(3, &[]);
    desk.call("seal day.shift out --ring ring.keys").ended(1, &[]);
    assert_eq!(desk.read("out"), b"old");
    assert!(desk.left_over().is_empty());
}

#[test]
fn what_may_not_be_written_is_not_replaced() {
    let desk = Desk::new("rights");
    let without_rights = if is_root() { AS_NOBODY } else { "" };
    let line = format!("{without_rights} $program seal day.draft out --ring ring.keys");
    desk.write("out", b"old");
    desk.set_mode("out", 0o444);
    desk.set_mode(".", 0o777);
    desk.shell(&line).ended(3, &["out cannot be written: Permission denied"]);
    desk.set_mode("out", 0o666);
    desk.set_mode(".", 0o555);
    desk.shell(&line).ended(3, &["out cannot be written: Permission denied"]);
    desk.set_mode(".", 0o755);
    assert_eq!(desk.read("out"), b"old");
    assert!(desk.left_over().is_empty());
}

#[test]
fn out_keeps_its_mode_and_owner() {
    let desk = Desk::new("modes");
    desk.shell("umask 027; $program seal day.draft new --ring ring.keys").done();
    assert_eq!(desk.mode("new"), 0o640);
    for mode in [0o600, 0o640, 0o664, 0o400] {
        desk.write("out", b"old");
        desk.set_mode("out", mode);
        if mode == 0o400 && !is_root() {
            continue; // not writable
        }
        desk.shell("umask 077; $program seal day.draft out --ring ring.keys").done();
        assert_eq!(desk.mode("out"), mode);
        fs::remove_file(desk.path("out")).unwrap();
    }
    if is_root() {
        desk.write("out", b"old");
        chown(desk.path("out"), Some(65_534), Some(65_534)).unwrap();
        desk.set_mode("out", 0o600);
        desk.call("unseal day.shift out --ring ring.keys").done();
        let found = fs::metadata(desk.path("out")).unwrap();
        assert_eq!((found.uid(), found.gid(), desk.mode("out")), (65_534, 65_534, 0o600));
    }
}

/// Decrypted messages are the owner's alone, whatever the umask and whatever was there before.
#[test]
fn plain_text_is_for_the_owner_alone() {
    let desk = Desk::new("plain");
    desk.shell("umask 000; $program unseal day.shift new.draft --ring ring.keys").done();
    assert_eq!(desk.mode("new.draft"), 0o600);
    desk.write("old.draft", b"old");
    desk.set_mode("old.draft", 0o644);
    desk.call("unseal day.shift old.draft --ring ring.keys").done();
    assert_eq!(desk.mode("old.draft"), 0o600);
    desk.set_mode("day.shift", 0o644);
    desk.call("unseal day.shift day.shift --ring ring.keys").done();
    assert_eq!(desk.mode("day.shift"), 0o600);
}

//! Runs that are interrupted or killed, and runs at the same time.

use crate::desk::Desk;
use snoekeldraf::ShiftFile;
use std::collections::BTreeSet;
use std::fs;
use std::os::unix::fs::MetadataExt;
use std::os::unix::process::ExitStatusExt;
use std::process::{Child, Command};
use std::thread::sleep;
use std::time::{Duration, Instant};

const INTERRUPT: i32 = 2;
const KILL: i32 = 9;
const TERMINATE: i32 = 15;

extern "C" {
    fn kill(process: i32, signal: i32) -> i32;
}

fn send(child: &Child, signal: i32) {
    // SAFETY: kill reads no memory, and the child was not waited for: its number is still its own.
    unsafe { kill(child.id() as i32, signal) };
}

/// Sends a signal as soon as a run has begun to write, or after a while. Returns the signal that ended the run.
fn interrupt(desk: &Desk, mut child: Child, signal: i32) -> Option<i32> {
    let started = Instant::now();
    while desk.left_over().is_empty() && started.elapsed() < Duration::from_millis(400) {
        if child.try_wait().unwrap().is_some() {
            break;
        }
    }
    if child.try_wait().unwrap().is_none() {
        send(&child, signal);
    }
    child.wait().unwrap().signal()
}

/// A file of the longest length, sealed twice over the same OUT.
fn prepared(name: &str) -> (Desk, Vec<u8>) {
    let desk = Desk::new(name);
    desk.draft_of("a.draft", 1_048_576, 17);
    desk.call("seal a.draft sealed --ring ring.keys").done();
    let sealed = desk.read("sealed");
    (desk, sealed)
}

#[test]
fn an_interrupted_run_leaves_nothing() {
    let (desk, sealed) = prepared("interrupted");
    let mut hits = 0;
    for round in 0..40 {
        desk.write("out", b"old");
        let child = desk.start("seal a.draft out --ring ring.keys");
        let signal = if round % 2 == 0 { INTERRUPT } else { TERMINATE };
        let ended = interrupt(&desk, child, signal);
        assert!(ended.is_none() || ended == Some(signal), "{ended:?}");
        hits += usize::from(ended.is_some());
        assert!(desk.left_over().is_empty(), "{:?}", desk.left_over());
        let out = desk.read("out");
        assert!(out == b"old" || out == sealed);
    }
    println!("{hits} of 40 runs were interrupted");
    assert!(hits > 0);
}

#[test]
fn what_a_killed_run_left_the_next_one_removes() {
    let (desk, sealed) = prepared("killed");
    let mut left = 0;
    for _ in 0..40 {
        desk.write("out", b"old");
        let child = desk.start("unseal sealed out --ring ring.keys");
        interrupt(&desk, child, KILL);
        for name in desk.left_over() {
            assert_eq!(desk.mode(&name), 0o600, "plain text");
            left += 1;
        }
        let out = desk.read("out");
        assert!(out == b"old" || out.len() == sealed.len());
        desk.call("seal day.draft other --ring ring.keys").done();
        assert!(desk.left_over().is_empty(), "{:?}", desk.left_over());
    }
    println!("{left} of 40 runs left a file");
    assert!(left > 0);
}

/// A file of an earlier run is recognised by its name, its owner and that nobody has it locked.
#[test]
fn only_left_over_files_are_removed() {
    let desk = Desk::new("left-over");
    for name in
        [".snoekeldraf-123-0", ".snoekeldraf-x-0", ".snoekeldraf-", ".snoekeldraf-1-0x", ".other", ".snoekeldraf-77-0"]
    {
        desk.write(name, b"");
    }
    std::os::unix::fs::symlink("day.shift", desk.path(".snoekeldraf-5-5")).unwrap();
    let mut holder = Command::new("flock").arg(desk.path(".snoekeldraf-77-0")).args(["sleep", "60"]).spawn().unwrap();
    sleep(Duration::from_millis(300));
    desk.call("seal day.draft out --ring ring.keys").done();
    let mut names = desk.left_over();
    names.sort();
    holder.kill().unwrap();
    holder.wait().unwrap();
    let kept =
        [".other", ".snoekeldraf-", ".snoekeldraf-1-0x", ".snoekeldraf-5-5", ".snoekeldraf-77-0", ".snoekeldraf-x-0"];
    assert_eq!(names, kept);
    assert!(desk.path("day.shift").exists());
}

/// Runs at the same time write the same OUT: it is one of the two, whole.
#[test]
fn writers_at_the_same_time() {
    let (desk, sealed) = prepared("two-writers");
    let day = desk.read("day.draft");
    for _ in 0..10 {
        let mut long = desk.start("seal a.draft out --ring ring.keys");
        let mut short = desk.start("seal day.draft out --ring ring.keys");
        assert!(long.wait().unwrap().success() && short.wait().unwrap().success());
        let out = desk.read("out");
        assert!(out == sealed || out.len() == day.len());
        assert!(desk.left_over().is_empty());
    }
}

/// The nonces of a draft, which the sealed file shows.
fn nonces(desk: &Desk, draft: &str) -> Vec<Vec<u8>> {
    desk.call(&format!("seal {draft} sealed --ring ring.keys")).done();
    let bytes = desk.read("sealed");
    let file = ShiftFile::check(&bytes).unwrap();
    // the prefix is random: without it, the count alone must not repeat
    file.entries().map(|entry| entry.nonce[entry.nonce.len() - 8..].to_vec()).collect()
}

fn table(desk: &Desk, rows: u32) {
    let lines = (0..rows).map(|job| format!("{job},{},0,1,,\n", if job % 2 == 0 { 3 } else { 1 }));
    desk.write("table.csv", format!("job,suite,key,unit,data,message\n{}", lines.collect::<String>()));
}

/// Waits until a run has come to a point: it writes its first file, has advanced the counter, or has written its draft.
fn wait_for(desk: &Desk, child: &mut Child, point: u32, counter: u64, out: &str) {
    let reached = || match point {
        0 => !desk.left_over().is_empty(),
        1 => inode(desk) != counter,
        _ => desk.path(out).exists(),
    };
    while !reached() && child.try_wait().unwrap().is_none() {}
}

fn inode(desk: &Desk) -> u64 {
    fs::metadata(desk.path("counter")).map_or(0, |found| found.ino())
}

#[test]
fn no_nonce_comes_twice_across_kills() {
    let desk = Desk::new("nonces-killed");
    table(&desk, 20);
    let (mut seen, mut drafts, mut killed) = (BTreeSet::new(), 0, 0);
    for round in 0..60 {
        let (out, counter) = (format!("{round}.draft"), inode(&desk));
        let mut child = desk.start(&format!("draft table.csv {out} --nonces counter"));
        wait_for(&desk, &mut child, round % 3, counter, &out);
        send(&child, KILL);
        killed += usize::from(child.wait().unwrap().signal() == Some(KILL));
        if desk.path(&out).exists() {
            drafts += 1;
            for nonce in nonces(&desk, &out) {
                assert!(seen.insert(nonce), "a nonce came twice");
            }
        }
    }
    desk.call("draft table.csv last.draft --nonces counter").done();
    assert!(nonces(&desk, "last.draft").into_iter().all(|nonce| seen.insert(nonce)));
    println!("{killed} of 60 runs were killed, {drafts} had written a draft");
    assert!(desk.left_over().is_empty() && killed > 0 && drafts >= 20);
}

#[test]
fn no_nonce_comes_twice_in_runs_at_the_same_time() {
    let desk = Desk::new("nonces-together");
    table(&desk, 30);
    let start = |index| desk.start(&format!("draft table.csv {index}.draft --nonces counter"));
    let mut children: Vec<Child> = (0..16).map(start).collect();
    assert!(children.iter_mut().all(|child| child.wait().unwrap().success()));
    let mut seen = BTreeSet::new();
    for index in 0..16 {
        assert!(nonces(&desk, &format!("{index}.draft")).into_iter().all(|nonce| seen.insert(nonce)));
    }
    assert_eq!(seen.len(), 480);
    assert_eq!(desk.read("counter"), b"snoekeldraf nonce counter, version 1\nnext 480\n");
    assert_eq!(fs::metadata(desk.path("counter")).unwrap().mode() & 0o777, 0o600);
}

/// Waiting is said.
#[test]
fn a_counter_in_use_is_waited_for() {
    let desk = Desk::new("nonces-waiting");
    table(&desk, 1);
    desk.write("counter", b"");
    let line = "flock counter sleep 1 & sleep 0.3; $program draft table.csv a.draft --nonces counter; wait";
    desk.shell(line).ended(0, &["waiting for another run that uses the nonce counter counter"]);
    assert_eq!(nonces(&desk, "a.draft").len(), 1);
}

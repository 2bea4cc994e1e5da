//! When `./run` proves and when it does not, in a small tree with a stand-in for the prover and for a program, so that neither
//! the kit nor a proof is needed. The stand-in `rt run` records each call in a file and builds what the test prescribes. In a
//! folder that it cannot write it behaves as the kit's: the error of the system, exit status 1.

mod folder;

use folder::{ended, root, Folder, PROGRAMS};
use std::path::Path;
use std::process::{Command, Stdio};
use std::time::{Duration, Instant};

const RT: &str = r#"#!/bin/bash
here=${0%/rt}
case $1 in doc) echo "$here/START-HERE.md"; exit ;; esac
if [ ! -w . ]; then
    echo "PermissionError: [Errno 13] Permission denied: '$PWD/out/stamp'" >&2
    exit 1
fi
echo "start $*" >>"$here/calls"
[ ! -f "$here/slow" ] || sleep "$(cat "$here/slow")"
if [ -f "$here/fails" ]; then cat "$here/fails" >&2; echo end >>"$here/calls"; exit 1; fi
[ "$1" = run ] || { echo end >>"$here/calls"; exit; }
program=${PWD##*/} text=$(cat ../program_text/src/lib.rt) crates=$program
[ "$(cat ../program_text/out/stamp 2>/dev/null)" = "$text" ] || crates="program_text $program"
for crate in $crates; do
    echo "rt: chose --jobs 2 for $crate"
    echo "src/lib.rt:48:5: note: large solution: it may be given by hand"
    echo "note: no function with a body is declared, so nothing was lowered"
    echo "  a line that goes on with the note"
    for kind in struct enum fn; do echo "$kind $crate::Line: proved"; done
    echo "crate $crate: modules loaded=0 checked=33"
    echo "logic=proved functions=1 target=x86_64-unknown-linux-gnu"
done >&2
mkdir -p out ../program_text/out
echo "$text" >../program_text/out/stamp
printf '#!/bin/sh\necho "0 0"; echo "%s"\n' "$text" >out/$program
chmod +x out/$program
echo "rt: running out/$program; to give it other input, run that file yourself" >&2
out/$program
echo "$program FILE RING JOB" >&2
echo end >>"$here/calls"
"#;

/// A tree with `./run`, the six programs, the crate `program_text` below them and `other` beside it.
fn tree(name: &str) -> Folder {
    let folder = Folder::new(name);
    let lib = "kit/toolchain/lib";
    for path in ["tools/run", "library", "samples", lib] {
        std::fs::create_dir_all(folder.0.join(path)).unwrap();
    }
    for path in ["run", "tools/run/words.sh", "tools/run/prove.sh", "tools/run/save.sh", "library/words.c"] {
        std::fs::copy(root().join(path), folder.0.join(path)).unwrap();
    }
    let mut crates = "# crate: what it uses\nprogram_text:\nother:\n".to_string();
    let programs = PROGRAMS.map(|name| (format!("{name}/src/main.rt"), "main"));
    let libraries =
        [("program_text", "one"), ("other", "other")].map(|(name, text)| (format!("{name}/src/lib.rt"), text));
    for (path, text) in libraries.iter().chain(&programs) {
        std::fs::create_dir_all(folder.0.join("crates").join(path).parent().unwrap()).unwrap();
        folder.put(&format!("crates/{path}"), text.as_bytes());
    }
    PROGRAMS.iter().for_each(|name| crates += &format!("{name}: program_text\n"));
    folder.put("crates.txt", crates.as_bytes());
    folder.put("kit/KIT-ID", b"stand-in");
    script(&folder, "kit/rt", RT);
    script(&folder, &format!("{lib}/ld-linux-x86-64.so.2"), "#!/bin/sh\nshift 2\nexec \"$@\"\n");
    folder
}

fn script(folder: &Folder, path: &str, text: &str) {
    folder.put(path, text.as_bytes());
    assert!(Command::new("chmod").arg("755").arg(folder.0.join(path)).status().unwrap().success());
}

fn command(folder: &Folder, arguments: &[&str]) -> Command {
    let path = format!("{}:{}", folder.0.join("kit").display(), std::env::var("PATH").unwrap());
    let mut command = Command::new(folder.0.join("run"));
    command.args(arguments).env("PATH", path).current_dir("/");
    command
}

fn job(folder: &Folder) -> (i32, String, String) {
    ended(command(folder, &["job", "file", "ring", "1"]).output().unwrap())
}

/// How many proofs the stand-in was called for.
fn proofs(folder: &Folder) -> usize {
    let calls = std::fs::read_to_string(folder.0.join("kit/calls")).unwrap_or_default();
    calls.lines().filter(|line| line.starts_with("start run")).count()
}

/// Replaces a file's bytes by others of the same length, and restores its old modification time.
fn change(path: &Path, bytes: &[u8]) {
    let time = std::fs::metadata(path).unwrap().modified().unwrap();
    std::fs::write(path, bytes).unwrap();
    std::fs::File::options().append(true).open(path).unwrap().set_modified(time).unwrap();
}

/// A program is proved once, and again after any change of what it depends on: a byte with the same length and time, a new
/// file, the kit, the built program itself. A new time alone and a change of another crate need no proof.
#[test]
fn a_changed_source_is_proved_again() {
    let folder = tree("changed");
    assert_eq!(job(&folder).1, "0 0\none\n");
    assert_eq!((job(&folder).1, proofs(&folder)), ("0 0\none\n".into(), 1));
    change(&folder.0.join("crates/program_text/src/lib.rt"), b"two");
    assert_eq!((job(&folder).1, proofs(&folder)), ("0 0\ntwo\n".into(), 2));
    folder.put("crates/program_text/src/new.rt", b"");
    assert_eq!((job(&folder).0, proofs(&folder)), (0, 3));
    folder.put("kit/KIT-ID", b"another");
    assert_eq!((job(&folder).0, proofs(&folder)), (0, 4));
    script(&folder, ".run/bin/job", "#!/bin/sh\necho '0 0'; echo forged\n");
    assert_eq!((job(&folder).1, proofs(&folder)), ("0 0\ntwo\n".into(), 5));
    folder.put("crates/program_text/src/lib.rt", b"two");
    folder.put("crates/other/src/lib.rt", b"changed");
    std::fs::remove_dir_all(folder.0.join("crates/job/out")).unwrap();
    let (status, printed, said) = job(&folder);
    assert_eq!((status, &printed[..], &said[..], proofs(&folder)), (0, "0 0\ntwo\n", "", 5));
}

/// If a proof fails, the exit status is 3, the prover's lines are printed, and the old program does not run.
#[test]
fn what_is_not_proved_does_not_run() {
    let folder = tree("unproved");
    assert_eq!(job(&folder).0, 0);
    folder.put("crates/program_text/src/lib.rt", b"bad");
    let error = "crates/program_text/src/lib.rt:1:1: error: the ensures is not proved";
    let lines = ["note: the ensures may be false", "rt: cannot write: Permission denied", "logic=not-proved"];
    folder.put("kit/fails", format!("{error}\n{}\n", lines.join("\n")).as_bytes());
    let (status, printed, said) = job(&folder);
    assert_eq!((status, &printed[..]), (3, ""));
    assert!(lines.iter().all(|line| said.contains(line)) && said.contains("job is not proved"), "{said}");
    assert!(said.contains(error), "{said}");
}

/// A changed source in a tree that the user cannot write: exit status 3 and the system's reason. The prover is not called,
/// and the old program does not run.
#[test]
fn a_tree_that_cannot_be_written() {
    let folder = tree("readonly");
    assert_eq!(job(&folder).0, 0);
    let as_nobody = |folder: &Folder| {
        let run = command(folder, &[]);
        let mut other = Command::new("setpriv");
        other.args(["--reuid=65534", "--regid=65534", "--clear-groups", "--"]).arg(run.get_program());
        other.envs(run.get_envs().filter_map(|(name, value)| Some((name, value?))));
        ended(other.args(["job", "file", "ring", "1"]).current_dir("/").output().unwrap())
    };
    let (status, printed, said) = as_nobody(&folder);
    if said.contains("setpriv: ") {
        return eprintln!("skipped in part: only root can act as another user");
    }
    assert_eq!((status, &printed[..]), (0, "0 0\none\n"), "{said}");
    folder.put("crates/program_text/src/lib.rt", b"bad");
    let (status, printed, said) = as_nobody(&folder);
    assert_eq!((status, &printed[..], proofs(&folder)), (3, "", 1), "{said}");
    assert!(said.lines().all(|line| line.starts_with("run: ")), "{said}");
    assert!(
        said.contains("nothing is proved, since the results cannot be written: ") && said.contains("Permission denied")
    );
}

/// Calls of the stand-in never overlap: a second `./run` waits for the first and prints a message.
#[test]
fn two_runs_prove_one_after_the_other() {
    let folder = tree("two");
    folder.put("kit/slow", b"2");
    let runs = [0, 1].map(|_| {
        let mut run = command(&folder, &["job", "file", "ring", "1"]);
        let run = run.stdout(Stdio::piped()).stderr(Stdio::piped()).spawn().unwrap();
        std::thread::sleep(Duration::from_millis(700));
        run
    });
    let [first, second] = runs.map(|run| ended(run.wait_with_output().unwrap()));
    assert_eq!((first.0, second.0), (0, 0), "{} {}", first.2, second.2);
    do_not_overlap(&folder);
    assert!(first.2.contains("waiting for it") ^ second.2.contains("waiting for it"), "{} {}", first.2, second.2);
}

/// Every call of the stand-in ended before the next one started.
fn do_not_overlap(folder: &Folder) {
    let calls = std::fs::read_to_string(folder.0.join("kit/calls")).unwrap();
    assert!(calls.lines().step_by(2).all(|line| line.starts_with("start")), "two at the same time:\n{calls}");
    assert!(calls.lines().skip(1).step_by(2).all(|line| line == "end"), "two at the same time:\n{calls}");
}

/// `./run` waits for an `rt` that somebody else started in this tree, at its top or in a crate, and stops its own proof if one
/// starts meanwhile.
#[test]
fn another_rt_goes_first() {
    let folder = tree("first");
    folder.put("kit/slow", b"2");
    let start = |word: &str, place: &str| {
        let mut rt = Command::new(folder.0.join("kit/rt"));
        rt.arg(word).current_dir(folder.0.join(place)).stdout(Stdio::null()).spawn().unwrap()
    };
    let mut gate = start("ci", "");
    std::thread::sleep(Duration::from_millis(300));
    let began = Instant::now();
    let (status, _, said) = job(&folder);
    assert!(gate.wait().unwrap().success());
    do_not_overlap(&folder);
    assert!(status == 0 && said.contains("another rt works in this repository"), "{said}");
    assert!(began.elapsed() > Duration::from_secs(3));
    folder.put("crates/program_text/src/lib.rt", b"two");
    folder.put("kit/slow", b"4");
    let before = proofs(&folder);
    let mut run = command(&folder, &["job", "file", "ring", "1"]);
    let run = run.stdout(Stdio::piped()).stderr(Stdio::piped()).spawn().unwrap();
    let began = Instant::now();
    while proofs(&folder) == before {
        assert!(began.elapsed() < Duration::from_secs(60), "no proof was started");
        std::thread::sleep(Duration::from_millis(50));
    }
    let mut gate = start("check", "crates/other");
    let (status, printed, said) = ended(run.wait_with_output().unwrap());
    assert!(gate.wait().unwrap().success());
    assert_eq!((status, &printed[..]), (0, "0 0\ntwo\n"), "{said}");
    assert!(said.contains("another rt began to work here") && proofs(&folder) == before + 2, "{said}");
}

/// A proof says how long it takes before it starts, by the sources that it proves, and how far it is; the prover's notes are
/// not shown.
#[test]
fn a_proof_says_how_far_it_is() {
    let folder = tree("progress");
    let (_, _, said) = job(&folder);
    assert!(said.contains("proving job and the crates below it: about "), "{said}");
    assert!(said.contains(" seconds on a free machine"), "{said}");
    assert!(said.contains("program_text: 1 of 2 crates, about ") && said.contains("job: 2 of 2 crates"), "{said}");
    assert!(said.lines().all(|line| line.starts_with("run: ")), "{said}");
}

/// `./run build` proves each program once; no program needs another proof on its first use.
#[test]
fn build_proves_every_program_once() {
    let folder = tree("build");
    let (status, _, said) = ended(command(&folder, &["build"]).output().unwrap());
    assert_eq!((status, proofs(&folder)), (0, PROGRAMS.len()), "{said}");
    assert!(said.contains("job: 2 of 7 crates") && said.contains("inspect: 7 of 7 crates"), "{said}");
    let out = folder.0.join("out");
    let out = out.to_str().unwrap();
    for call in [
        &["job", "file", "ring", "1"][..],
        &["current", "amendment", "day", "ring", "1"],
        &["write", "draft", "ring", out],
        &["convert", "file", out],
        &["differ", "first", "second"],
        &["inspect", "file", "ring"],
    ] {
        let (status, printed, said) = ended(command(&folder, call).output().unwrap());
        assert_eq!((status, &printed[..], &said[..]), (0, "0 0\none\n", ""), "{call:?}");
    }
    assert_eq!(proofs(&folder), PROGRAMS.len());
}

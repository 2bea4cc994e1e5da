//! `./run` on real files, as a plant calls it: where OUT is written and with which mode, what a killed run leaves, the
//! messages, and the exit status. No test starts the prover: if the programs are not built from these sources
//! (`./run build`), each test prints that it is skipped.

mod folder;

use folder::{ended, is_built, root, Folder, PROGRAMS};
use reference::data::{files, samples};
use reference::plan::{Entry, Plan};
use reference::shift::rows;
use reference::{difference, editions, report, writer};
use std::io::Write;
use std::os::unix::fs::{symlink, FileTypeExt, MetadataExt, PermissionsExt};
use std::os::unix::process::CommandExt;
use std::path::Path;
use std::process::{Child, Command, Stdio};
use std::time::Instant;

fn is_root() -> bool {
    let root = std::fs::metadata("/proc/self").unwrap().uid() == 0;
    if !root {
        eprintln!("skipped in part: only root can act as another user");
    }
    root
}

/// A folder with the sample files, and what the reference implementation makes of them.
fn plant(name: &str) -> Folder {
    let folder = Folder::new(name);
    folder.put("ring", &samples::ring());
    folder.put("day", &samples::day());
    folder.put("stations", &samples::stations());
    folder.put("draft", &samples::draft());
    folder
}

fn sealed() -> Vec<u8> {
    let draft = samples::draft();
    let mut file = vec![0; draft.len()];
    assert_eq!(writer::seal_file(&draft, &samples::ring(), &mut file), (0, 0));
    file
}

/// A file of edition 1 with 500 jobs and messages of this length, and the same file in edition 2.
fn large(length: usize) -> (Vec<u8>, Vec<u8>) {
    let entry = |job: u32| Entry::new(job, 6, 0, 1, nonce(job), &vec![b'.'; length]);
    let one = Plan::new((1..=500).map(entry).collect()).file(&samples::ring());
    let mut two = vec![0; one.len() + 4 * 500];
    assert_eq!(editions::to_edition2(&one, &mut two), (0, 0));
    (one, two)
}

fn nonce(job: u32) -> [u8; 16] {
    let mut nonce = [0; 16];
    nonce[..4].copy_from_slice(&job.to_le_bytes());
    nonce
}

fn mode(path: &Path) -> u32 {
    std::fs::metadata(path).unwrap().mode() & 0o7777
}

fn set_mode(path: &Path, mode: u32) {
    std::fs::set_permissions(path, std::fs::Permissions::from_mode(mode)).unwrap();
}

fn is_link(path: &Path) -> bool {
    std::fs::symlink_metadata(path).unwrap().is_symlink()
}

/// Messages for a file of about 470,000 and of about 920,000 bytes: less than half of the format, and nearly all of it.
const LONG: usize = 900;
const LONGER: usize = 1800;

const DONE: &str = "0 0\n";
const NOT_WRITTEN: &str = "OUT cannot be written\n";

/// A link is followed and kept, also a link to a file that does not exist yet, and a link to a link.
#[test]
fn links_are_followed() {
    if !is_built() {
        return;
    }
    let folder = plant("links");
    std::fs::create_dir(folder.0.join("far")).unwrap();
    folder.put("far/old", b"as it was");
    for (link, target) in [("link", "far/old"), ("new", "far/new"), ("twice", "link")] {
        symlink(target, folder.0.join(link)).unwrap();
        assert_eq!(folder.run(&["write", "draft", "ring", link]).0, 0, "{link}");
        assert!(is_link(&folder.0.join(link)), "the link {link} is replaced");
        assert!(folder.get(link) == sealed());
    }
    symlink("loop", folder.0.join("loop")).unwrap();
    let (status, printed, _) = folder.run(&["write", "draft", "ring", "loop"]);
    assert_eq!((status, &printed[..]), (3, NOT_WRITTEN));
    assert!(is_link(&folder.0.join("loop")));
    assert_eq!(folder.names(), ["day", "draft", "far", "link", "loop", "new", "ring", "stations", "twice"]);
}

/// Device files and the links to them are written to, never replaced, also as root.
#[test]
fn devices_stay() {
    if !is_built() {
        return;
    }
    let folder = plant("devices");
    let links = || ["/dev/stderr", "/dev/stdout"].map(|path| std::fs::read_link(path).ok());
    let were = links();
    let (status, printed, _) = folder.shell("\"$0\" write draft ring /dev/stderr 2>log");
    assert_eq!(links(), were);
    assert_eq!((status, &printed[..]), (0, DONE));
    assert!(folder.get("log") == sealed());
    symlink("/proc/self/fd/2", folder.0.join("error")).unwrap();
    symlink("error", folder.0.join("twice")).unwrap();
    for out in ["error", "twice"] {
        folder.put("log", b"first,");
        let added = [b"first,", &sealed()[..]].concat();
        for (to, expected) in [(">>log", added), (">log", sealed()), ("> >(cat >log)", sealed())] {
            assert_eq!(folder.shell(&format!("\"$0\" write draft ring {out} 2{to}; s=$?; wait $!; exit $s")).0, 0);
            assert!(folder.get("log") == expected, "{out} {to}");
        }
        assert!(is_link(&folder.0.join(out)));
    }
    symlink("/dev/null", folder.0.join("link")).unwrap();
    for out in ["link", "/dev/null"] {
        assert_eq!(folder.run(&["write", "draft", "ring", out]).0, 0);
    }
    assert!(is_link(&folder.0.join("link")));
    let device = Command::new("mknod").arg(folder.0.join("device")).args(["c", "1", "3"]).output().unwrap();
    if device.status.success() {
        assert_eq!(folder.run(&["write", "draft", "ring", "device"]).0, 0);
        assert!(std::fs::metadata(folder.0.join("device")).unwrap().file_type().is_char_device());
    }
    assert!(std::fs::metadata("/dev/null").unwrap().file_type().is_char_device());
}

/// A pipe as OUT gets every byte, by name or as the standard output; in that case the status goes to the standard error.
#[test]
fn pipes_get_every_byte() {
    if !is_built() {
        return;
    }
    let folder = plant("pipes");
    assert!(Command::new("mkfifo").arg(folder.0.join("pipe")).status().unwrap().success());
    for length in [LONG, LONGER] {
        let (one, two) = large(length);
        folder.put("one", &one);
        let output = folder.command(&["convert", "one", "/dev/stdout"]).output().unwrap();
        assert!(output.stdout == two, "{} bytes of {}", output.stdout.len(), two.len());
        assert_eq!(output.stderr, DONE.as_bytes());
        for _ in 0..2 {
            let mut reader = Command::new("bash").args(["-c", "cat pipe >got"]).current_dir(&folder.0).spawn().unwrap();
            assert_eq!(folder.run(&["convert", "one", "pipe"]).0, 0);
            assert!(reader.wait().unwrap().success());
            assert!(folder.get("got") == two);
        }
        for out in ["/dev/stdout", "/dev/fd/1", "/proc/self/fd/1"] {
            assert_eq!(folder.shell(&format!("\"$0\" convert one {out} >got")).0, 0);
            assert!(folder.get("got") == two, "{out}");
        }
        folder.put("got", b"first,");
        assert_eq!(folder.shell("\"$0\" convert one /dev/fd/7 7>>got").0, 0);
        assert!(folder.get("got") == [b"first,", &two[..]].concat());
    }
    assert!(std::fs::metadata(folder.0.join("pipe")).unwrap().file_type().is_fifo());
}

/// OUT keeps its mode and, for root, its owner. A restored draft is its owner's alone; other new files follow the umask.
#[test]
fn modes_are_kept() {
    if !is_built() {
        return;
    }
    let folder = plant("modes");
    let out = folder.0.join("out");
    for old in [0o600, 0o640, 0o664, 0o444 | 0o200] {
        folder.put("out", b"as it was");
        set_mode(&out, old);
        assert_eq!(folder.run(&["write", "draft", "ring", "out"]).0, 0);
        assert!(mode(&out) == old, "mode {old:o} became {:o}", mode(&out));
        assert_eq!(folder.run(&["write", "back", "day", "ring", "out"]).0, 0);
        assert_eq!(mode(&out), 0o600, "plain text over a file of mode {old:o}");
    }
    for (umask, call, new) in [
        ("022", "write back day ring new", 0o600),
        ("000", "write back day ring new", 0o600),
        ("022", "write draft ring new", 0o644),
        ("027", "convert day new", 0o640),
        ("077", "write reseal day ring new", 0o600),
    ] {
        let (status, _, said) = folder.shell(&format!("umask {umask}; \"$0\" {call}"));
        assert_eq!((status, mode(&folder.0.join("new"))), (0, new), "{call}: {said}");
        std::fs::remove_file(folder.0.join("new")).unwrap();
    }
    if is_root() {
        set_mode(&out, 0o600);
        std::os::unix::fs::chown(&out, Some(65534), Some(65534)).unwrap();
        assert_eq!(folder.run(&["write", "back", "day", "ring", "out"]).0, 0);
        let now = std::fs::metadata(&out).unwrap();
        assert_eq!((now.uid(), now.gid(), now.mode() & 0o7777), (65534, 65534, 0o600));
    }
}

/// While a draft is being restored, no file that the run makes can be read by others. A run is short: we look at several, until
/// one was seen at work.
#[test]
fn a_draft_is_private_from_the_first_byte() {
    if !is_built() {
        return;
    }
    let folder = plant("private");
    for length in [LONG, LONGER] {
        folder.put("one", &large(length).0);
        assert!((0..40).any(|_| is_private(&folder)), "no run was seen at work");
    }
}

/// Restores the draft of `one`, and checks the mode of each file as it appears; returns whether a temporary file was seen.
fn is_private(folder: &Folder) -> bool {
    let before = folder.names();
    let mut seen = false;
    let mut run = folder.command(&["write", "back", "one", "ring", "out"]);
    let mut run = run.stdout(Stdio::null()).spawn().unwrap();
    while run.try_wait().unwrap().is_none() {
        for name in folder.names().iter().filter(|name| !before.contains(name)) {
            if let Ok(file) = std::fs::metadata(folder.0.join(name)) {
                assert!(file.mode() & 0o7777 == 0o600, "{name} has mode {:o}", file.mode() & 0o7777);
                seen |= name != "out";
            }
        }
    }
    assert!(run.wait().unwrap().success());
    assert_eq!(mode(&folder.0.join("out")), 0o600);
    std::fs::remove_file(folder.0.join("out")).unwrap();
    seen
}

/// A file of edition 1 with 512 rows that is so long.
fn of_length(length: usize) -> Vec<u8> {
    let entry = |job: u32| Entry::new(job, 6, 0, 1, nonce(job), b"");
    let mut plan = Plan::new((1..=512).map(entry).collect());
    let left = length - plan.file(&samples::ring()).len();
    for (i, entry) in plan.entries.iter_mut().enumerate() {
        entry.message = vec![b'.'; left / 512 + (i < left % 512) as usize];
    }
    plan.file(&samples::ring())
}

/// Whatever `convert` makes, the programs read: also over its input. What would be too long is not made.
#[test]
fn the_whole_format() {
    if !is_built() {
        return;
    }
    let folder = plant("whole");
    for length in [524_288, 1_046_528] {
        let one = of_length(length);
        folder.put("file", &one);
        assert_eq!(folder.run(&["convert", "file", "file"]), (0, DONE.into(), String::new()));
        assert_eq!(folder.get("file").len(), length + 4 * 512);
        let (status, printed, said) = folder.run(&["job", "file", "ring", "512"]);
        assert!(status == 0 && printed.starts_with(DONE), "{printed}{said}");
        assert_eq!(folder.run(&["convert", "back", "file", "file"]), (0, DONE.into(), String::new()));
        assert!(folder.get("file") == one);
    }
    let longest = of_length(1_048_576);
    folder.put("file", &longest);
    let (status, printed, said) = folder.run(&["convert", "file", "file"]);
    assert_eq!((status, &printed[..]), (1, "20 0\n"), "{said}");
    assert!(folder.get("file") == longest);
    assert_eq!(folder.run(&["write", "back", "file", "ring", "file"]).0, 0);
    assert_eq!(folder.run(&["write", "file", "ring", "file"]).0, 0);
    assert!(folder.get("file") == longest);
}

/// A call of a built program takes less than 0.1 s of processor time.
#[test]
fn a_call_of_a_built_program_is_cheap() {
    if !is_built() {
        return;
    }
    let folder = plant("cheap");
    let seconds = |_| {
        let script = "TIMEFORMAT='%U %S'; time \"$0\" job day ring 4103 >/dev/null";
        let (status, _, said) = folder.shell(script);
        assert_eq!(status, 0, "{said}");
        said.split_whitespace().map(|word| word.parse::<f64>().unwrap()).sum::<f64>()
    };
    let least = (0..5).map(seconds).fold(f64::MAX, f64::min);
    println!("a call takes {least:.3} s");
    assert!(least < 0.1, "{least}");
}

/// OUT may be the input but never the ring, under any name.
#[test]
fn the_ring_is_never_overwritten() {
    if !is_built() {
        return;
    }
    let folder = plant("ring");
    symlink("ring", folder.0.join("link")).unwrap();
    std::fs::hard_link(folder.0.join("ring"), folder.0.join("hard")).unwrap();
    for out in ["ring", "./ring", "link", "hard"] {
        for call in [vec!["write", "draft", "ring", out], vec!["write", "back", "day", "ring", out]] {
            let (status, printed, said) = folder.run(&call);
            assert_eq!((status, &printed[..], &said[..]), (2, "", "run: OUT is the ring: nothing is written\n"));
        }
    }
    assert!(folder.get("ring") == samples::ring());
    assert_eq!(folder.run(&["write", "draft", "ring", "draft"]).0, 0);
    assert!(folder.get("draft") == sealed());
    assert_eq!(folder.run(&["write", "back", "draft", "ring", "draft"]).0, 0);
    assert!(folder.get("draft") == samples::draft());
}

/// Starts a run in a process group of its own, and a shell that sends the group a signal once it is told to.
fn started(folder: &Folder, call: &[&str], signal: &str) -> (Child, Child) {
    let mut command = folder.command(call);
    let run = command.process_group(0).stdout(Stdio::null()).stderr(Stdio::null()).spawn().unwrap();
    let mut killer = Command::new("bash");
    killer.args(["-c", "read -r; kill \"$0\" -- \"-$1\"", signal, &run.id().to_string()]);
    let killer = killer.stdin(Stdio::piped()).stderr(Stdio::null()).spawn().unwrap();
    (run, killer)
}

/// Ends a run by the signal; returns whether it was still running.
fn killed((mut run, mut killer): (Child, Child)) -> bool {
    let runs = run.try_wait().unwrap().is_none();
    if runs {
        killer.stdin.as_mut().unwrap().write_all(b"now\n").unwrap();
    } else {
        killer.kill().unwrap();
    }
    killer.wait().unwrap();
    run.wait().unwrap();
    runs
}

/// Whichever signal ends a run at whatever time, OUT is the old file or the new one. A stopped run removes its temporary
/// file; the next run removes that of a killed one.
#[test]
fn a_killed_run_leaves_nothing() {
    if !is_built() {
        return;
    }
    let folder = plant("killed");
    let expected = ["day", "draft", "one", "out", "ring", "stations"];
    for length in [LONG, LONGER] {
        let (one, two) = large(length);
        folder.put("one", &one);
        let start = Instant::now();
        assert_eq!(folder.run(&["convert", "one", "out"]).0, 0);
        let whole = start.elapsed();
        let mut kills = 0;
        for (i, signal) in ["-INT", "-TERM", "-HUP", "-KILL"].into_iter().cycle().take(16).enumerate() {
            folder.put("out", b"as it was");
            let run = started(&folder, &["convert", "one", "out"], signal);
            std::thread::sleep(whole * i as u32 / 16);
            kills += killed(run) as u32;
            let out = folder.get("out");
            assert!(out == b"as it was" || out == two);
            if signal == "-KILL" {
                assert_eq!(folder.run(&["convert", "one", "out"]).0, 0);
            }
            assert_eq!(folder.names(), expected, "{signal}");
        }
        println!("{kills} of 16 runs were killed");
        assert!(kills > 0);
        folder.put(".snoekeldraf-999999999-abcdef", b"left by a killed run");
        folder.put(".snoekeldraf-999999999-abcdef.ghijkl", b"left by its program");
        assert_eq!(folder.run(&["convert", "one", "out"]).0, 0);
        assert!(folder.get("out") == two);
        assert_eq!(folder.names(), expected);
    }
}

/// A run that is stopped as soon as its temporary file is there leaves no plain text. We stop 30, of which some may be done
/// before the signal comes.
#[test]
fn a_stopped_run_leaves_no_plain_text() {
    if !is_built() {
        return;
    }
    let folder = plant("stopped");
    folder.put("one", &large(LONG).0);
    folder.put("out", b"as it was");
    let before = folder.names();
    let mut kills = 0;
    for signal in ["-INT", "-TERM", "-HUP"].into_iter().cycle().take(30) {
        let (mut run, killer) = started(&folder, &["write", "back", "one", "ring", "out"], signal);
        while folder.names() == before && run.try_wait().unwrap().is_none() {}
        kills += killed((run, killer)) as u32;
        assert_eq!(folder.names(), before, "{signal}");
    }
    println!("{kills} of 30 runs were stopped");
    assert!(kills > 0);
}

/// The temporary file of a run that still works is not removed.
#[test]
fn a_running_neighbour_is_left_alone() {
    if !is_built() {
        return;
    }
    let folder = plant("neighbour");
    let name = format!(".snoekeldraf-{}-abcdef", std::process::id());
    folder.put(&name, b"of a run that works");
    assert_eq!(folder.run(&["write", "draft", "ring", "out"]).0, 0);
    assert_eq!(folder.get(&name), b"of a run that works");
}

/// A full device and a full file system: exit status 3, the system's reason, and OUT is unchanged.
#[test]
fn a_full_disk() {
    if !is_built() {
        return;
    }
    let folder = plant("full");
    let (status, printed, said) = folder.run(&["write", "draft", "ring", "/dev/full"]);
    assert_eq!((status, &printed[..]), (3, NOT_WRITTEN));
    assert!(said.contains("/dev/full cannot be written: No space left on device"), "{said}");
    let (status, _, said) = folder.shell("\"$0\" job day ring 4103 >/dev/full");
    assert!(status == 3 && said.contains("the standard output cannot be written: No space left on device"), "{said}");
    let disk = folder.0.join("disk");
    std::fs::create_dir(&disk).unwrap();
    let mount = Command::new("mount").args(["-t", "tmpfs", "-o", "size=64k", "none"]).arg(&disk).output().unwrap();
    if !mount.status.success() {
        eprintln!("skipped in part: no small file system can be mounted here");
        return;
    }
    folder.put("disk/out", b"as it was");
    let _ = std::fs::write(disk.join("filler"), vec![0; 1 << 20]);
    let (status, printed, said) = folder.run(&["write", "draft", "ring", "disk/out"]);
    let (out, left) = (folder.get("disk/out"), std::fs::read_dir(&disk).unwrap().count());
    assert!(Command::new("umount").arg(&disk).status().unwrap().success());
    assert_eq!((status, &printed[..], &out[..], left), (3, NOT_WRITTEN, &b"as it was"[..], 2));
    assert!(said.contains("disk/out cannot be written: No space left on device"), "{said}");
}

/// Folders and names that cannot be written.
#[test]
fn out_cannot_be_written() {
    if !is_built() {
        return;
    }
    let folder = plant("unwritable");
    std::fs::create_dir(folder.0.join("folder")).unwrap();
    let endless = "x".repeat(300);
    for (out, why) in [
        ("folder", "it is a folder"),
        ("missing/out", "No such file or directory"),
        ("ring/out", "Not a directory"),
        (&endless, "File name too long"),
        ("", "its name is empty"),
    ] {
        for call in [vec!["write", "draft", "ring", out], vec!["convert", "day", out]] {
            let (status, printed, said) = folder.run(&call);
            assert_eq!((status, &printed[..]), (3, NOT_WRITTEN), "{out}");
            assert!(said.contains(&format!("cannot be written: {why}")), "{out}: {said}");
        }
    }
    assert_eq!(folder.names(), ["day", "draft", "folder", "ring", "stations"]);
}

/// Runs `./run` as a user who owns none of the files.
fn as_nobody(folder: &Folder, arguments: &[&str]) -> (i32, String, String) {
    let mut command = Command::new("setpriv");
    command.args(["--reuid=65534", "--regid=65534", "--clear-groups", "--"]).arg(root().join("run"));
    ended(command.args(arguments).current_dir(&folder.0).output().unwrap())
}

/// Files that another user may not read or replace.
#[test]
fn permissions() {
    if !is_built() || !is_root() {
        return;
    }
    let folder = plant("permissions");
    if as_nobody(&folder, &["help"]).0 != 0 {
        eprintln!("skipped: another user cannot reach this repository, or there is no setpriv");
        return;
    }
    folder.put("secret", &samples::ring());
    set_mode(&folder.0.join("secret"), 0o600);
    let (status, printed, said) = as_nobody(&folder, &["job", "day", "secret", "4103"]);
    assert!(status == 3 && printed == "2 0\n" && said.contains("secret cannot be read: Permission denied"), "{said}");
    folder.put("out", b"as it was");
    let (status, printed, said) = as_nobody(&folder, &["write", "draft", "ring", "out"]);
    assert_eq!((status, &printed[..]), (3, NOT_WRITTEN));
    assert!(said.contains("out cannot be written: Permission denied"), "{said}");
    set_mode(&folder.0, 0o777);
    assert_eq!(as_nobody(&folder, &["write", "draft", "ring", "out"]).0, 3);
    assert_eq!(folder.get("out"), b"as it was");
    set_mode(&folder.0.join("out"), 0o666);
    assert_eq!(as_nobody(&folder, &["write", "draft", "ring", "out"]).0, 0);
    assert_eq!(mode(&folder.0.join("out")), 0o606, "the group that cannot be kept gets no access");
    assert_eq!(folder.names(), ["day", "draft", "out", "ring", "secret", "stations"]);
}

/// A closed standard output is an error of its own, not of the call. Closed input and error do no harm.
#[test]
fn closed_descriptors() {
    if !is_built() {
        return;
    }
    let folder = plant("descriptors");
    let (status, _, said) = folder.shell("\"$0\" job day ring 4103 >&-");
    assert_eq!((status, &said[..]), (3, "run: the standard output is closed\n"));
    let (status, printed, _) = folder.shell("\"$0\" write draft ring out <&- 2>&-");
    assert_eq!((status, &printed[..]), (0, DONE));
    assert!(folder.get("out") == sealed());
}

/// A reader that closes its pipe early, after a line or before it, is no error.
#[test]
fn a_reader_that_goes_away() {
    if !is_built() {
        return;
    }
    let folder = plant("reader");
    let entry = Entry::new(1, 6, 0, 1, [1; 16], &[b'.'; 65_536]);
    folder.put("long", &Plan::new(vec![entry]).file(&samples::ring()));
    for call in ["job long ring 1", "inspect day ring", "help", "job --help", "version"] {
        for _ in 0..3 {
            let script = format!("\"$0\" {call} | head -1 >/dev/null; echo ${{PIPESTATUS[0]}}");
            let (_, printed, said) = folder.shell(&script);
            assert!(printed == "0\n" && !said.contains("cannot be written"), "{call}: {printed} {said}");
            let (_, printed, _) = folder.shell(&format!("\"$0\" {call} | :; echo ${{PIPESTATUS[0]}}"));
            assert_eq!(printed, "0\n", "{call}");
        }
    }
}

/// Exit status 2, the reason, and nothing printed.
fn wrong(folder: &Folder, call: &[&str], why: &str) {
    let (status, printed, said) = folder.run(call);
    assert_eq!((status, &printed[..]), (2, ""), "{call:?}");
    assert!(said.starts_with(&format!("run: {why}")), "{call:?}: {said}");
}

/// `back` and `reseal` are never file names: where OUT is missing, no file is written.
#[test]
fn a_forgotten_out() {
    if !is_built() {
        return;
    }
    let folder = plant("forgotten");
    folder.put("back", &samples::day());
    let (status, ..) = folder.run(&["convert", "back", "stations"]);
    assert!(folder.get("stations") == samples::stations(), "overwritten; exit status {status}");
    let hint = "OUT is missing after 'back' (for a file with that name write ./back)";
    wrong(&folder, &["convert", "back", "stations"], hint);
    wrong(&folder, &["write", "back", "day", "ring"], "OUT is missing after 'back'");
    wrong(&folder, &["write", "reseal", "day", "ring"], "OUT is missing after 'reseal'");
    assert_eq!(folder.names(), ["back", "day", "draft", "ring", "stations"]);
    assert_eq!(folder.run(&["convert", "./back", "out"]).0, 0);
}

/// A wrong call is told what is wrong with it.
#[test]
fn wrong_calls() {
    if !is_built() {
        return;
    }
    let folder = plant("wrong");
    for (call, why) in [
        (&["job", "day", "ring", "forty"][..], "'forty' is no job number (0 to 4294967295)"),
        (&["job", "day", "ring", "4294967296"], "'4294967296' is no job number"),
        (&["job", "day", "ring", "-1"], "'-1' is no job number"),
        (&["job", "day", "ring", ""], "'' is no job number"),
        (&["current", "day", "day", "ring", "x"], "'x' is no job number"),
        (&["write", "draft", "ring"], "2 arguments do not fit"),
        (&["nosuch"], "nosuch is no program"),
        (&["./nosuch"], "there is no file ./nosuch"),
    ] {
        wrong(&folder, call, why);
    }
}

#[test]
fn help_of_a_program() {
    if !is_built() {
        return;
    }
    let folder = plant("help");
    for name in PROGRAMS {
        let (status, printed, said) = folder.run(&[name, "--help"]);
        assert_eq!((status, &said[..]), (0, ""), "{name} --help");
        assert!(printed.starts_with(&format!("    ./run {name} ")), "{printed}");
    }
}

#[test]
fn the_version() {
    if !is_built() {
        return;
    }
    let folder = plant("version");
    let (status, printed, said) = folder.run(&["--version"]);
    assert_eq!((status, &said[..]), (0, ""));
    assert_eq!(printed, std::fs::read_to_string(root().join("VERSION")).unwrap());
}

/// Exit status 1, and these words on the standard error.
fn refused(folder: &Folder, call: &[&str], words: &[&str]) {
    ends_with(folder, call, 1, words);
}

/// A call ends with a status, and its standard error contains the words.
fn ends_with(folder: &Folder, call: &[&str], wanted: i32, words: &[&str]) {
    let (status, _, said) = folder.run(call);
    assert_eq!(status, wanted, "{call:?}: {said}");
    assert!(words.iter().all(|words| said.contains(words)), "{call:?}: {said}");
}

/// An input that cannot be read has an exit status of its own, and is refused in the system's words and in no others.
#[test]
fn what_cannot_be_read() {
    if !is_built() {
        return;
    }
    let folder = plant("unread");
    std::fs::create_dir(folder.0.join("folder")).unwrap();
    for (call, words) in [
        (&["job", "missing", "ring", "1"][..], "20: missing cannot be read: No such file or directory\n"),
        (&["job", "folder", "ring", "1"], "20: folder cannot be read: it is a folder\n"),
        (&["job", "", "ring", "1"], "20: '' cannot be read: No such file or directory\n"),
        (&["job", "day", "missing", "4103"], "2: missing cannot be read: No such file or directory\n"),
        (&["inspect", "missing", "ring"], "20: missing cannot be read: No such file or directory\n"),
        (&["inspect", "day", "missing"], "2: missing cannot be read: No such file or directory\n"),
        (&["differ", "day", "missing"], "20: missing cannot be read: No such file"),
    ] {
        ends_with(&folder, call, 3, &[words]);
        assert_eq!(folder.run(call).2.lines().count(), 1, "{call:?}");
    }
}

/// A length that is refused is said, with the lengths that the program takes.
#[test]
fn lengths() {
    if !is_built() {
        return;
    }
    let folder = plant("lengths");
    for length in [524_289, 1_048_576] {
        folder.put("good", &of_length(length));
        assert_eq!(folder.run(&["job", "good", "ring", "1"]).2, "");
        let long = format!("good is {length} bytes long");
        refused(&folder, &["inspect", "good", "ring"], &["inspect takes 8 to 65,280 bytes", &long]);
    }
    folder.put("over", &vec![1; 1_048_577]);
    refused(&folder, &["inspect", "over", "ring"], &["inspect takes 8 to 65,280 bytes", "over is 1048577 bytes long"]);
    refused(&folder, &["job", "over", "ring", "1"], &["job takes 8 to 1,048,576 bytes", "over is 1048577 bytes long"]);
    refused(&folder, &["job", "day", "day", "4103"], &["2: the ring is not 256 bytes long", "day is 991 bytes long"]);
}

/// An edition that is refused is said with those that the call takes.
#[test]
fn editions_of_a_call() {
    if !is_built() {
        return;
    }
    let folder = plant("editions");
    for (call, words) in [
        (&["write", "day", "ring", "out"][..], "this call takes edition 0, a draft"),
        (&["write", "back", "draft", "ring", "out"], "this call takes edition 1\n"),
        (&["write", "reseal", "stations", "ring", "out"], "this call takes edition 1\n"),
        (&["convert", "stations", "out"], "this call takes edition 1\n"),
        (&["convert", "back", "day", "out"], "this call takes edition 2\n"),
        (&["job", "draft", "ring", "1"], "this call takes edition 1 or 2\n"),
    ] {
        refused(&folder, call, &["run: 21: ", words]);
    }
    assert!(!folder.0.join("out").exists());
}

/// The job stands beside the row.
#[test]
fn rows_and_their_jobs() {
    if !is_built() {
        return;
    }
    let folder = plant("rows");
    let mut repeats = files::three_rows();
    files::fault(&mut repeats, 29, 2);
    folder.put("repeats", &repeats.file(&samples::ring()));
    folder.put("retired", &files::three_rows().draft());
    let forged = format!("8: row 2 (job {}): the tag differs", put_forged(&folder, &[2])[0]);
    let station = format!("35: row 0 (job {})'s station is not 0", rows(&samples::stations())[0].job);
    refused(&folder, &["job", "repeats", "ring", "10"], &["29: row 2 (job 30) repeats"]);
    refused(&folder, &["current", "day", "repeats", "ring", "10"], &["29: the day's file: row 2 (job 30) repeats"]);
    refused(&folder, &["write", "retired", "ring", "out"], &["10: row 2 (job 30)'s suite is 4"]);
    refused(&folder, &["write", "back", "forged", "ring", "out"], &[&forged]);
    refused(&folder, &["convert", "back", "stations", "out"], &[&station]);
    assert!(!folder.0.join("out").exists());
}

/// What to do next: a retired suite is sealed again, an entry with a wrong tag is not used.
#[test]
fn what_to_do_next() {
    if !is_built() {
        return;
    }
    let folder = plant("next");
    folder.put("retired", &files::three_rows().draft());
    let job = put_forged(&folder, &[2])[0].to_string();
    refused(&folder, &["write", "retired", "ring", "out"], &["run: 10: ", "./run write reseal FILE RING OUT"]);
    refused(&folder, &["job", "forged", "ring", &job], &["8: the tag differs", "do not use this entry"]);
}

/// Writes the sample day with wrong tags in these rows to `forged`; returns their jobs.
fn put_forged(folder: &Folder, wrong: &[usize]) -> Vec<u32> {
    let day = samples::day();
    let mut forged = day.clone();
    wrong.iter().for_each(|&i| forged[rows(&day)[i].tag().start] ^= 1);
    folder.put("forged", &forged);
    wrong.iter().map(|&i| rows(&day)[i].job).collect()
}

/// `inspect` prints document 02's lines, and on the standard error how many entries are wrong and which jobs.
#[test]
fn inspect_says_how_many_and_which() {
    if !is_built() {
        return;
    }
    let folder = plant("inspect");
    let jobs: Vec<String> = put_forged(&folder, &[2, 5]).iter().map(u32::to_string).collect();
    folder.put("other", &[7; 256]);
    for (file, key, ends, says) in [
        ("forged", "ring", 1, format!("8 entries, 2 wrong: job {}", jobs.join(" "))),
        ("day", "other", 1, "every tag is wrong: is it the right ring?".into()),
        ("day", "ring", 0, "8 entries, every tag is right".into()),
    ] {
        let (status, printed, said) = folder.run(&["inspect", file, key]);
        assert_eq!((status, printed), (ends, report::printed(&folder.get(file), &folder.get(key))));
        assert!(said.contains(&says), "{said}");
    }
    assert_eq!(report::printed(&samples::day(), &samples::ring()).lines().count(), 9);
}

/// `differ` exits with status 1 if the files differ.
#[test]
fn differ_has_a_status() {
    if !is_built() {
        return;
    }
    let folder = plant("differ");
    put_forged(&folder, &[2, 5]);
    let (day, forged) = (samples::day(), folder.get("forged"));
    assert_eq!(folder.run(&["differ", "day", "day"]), (0, difference::printed(&day, &day), String::new()));
    let (status, printed, _) = folder.run(&["differ", "day", "forged"]);
    assert_eq!((status, printed), (1, difference::printed(&day, &forged)));
}

/// A program that is called by its path has the same exit statuses.
#[test]
fn a_path_has_a_status() {
    if !is_built() {
        return;
    }
    let folder = plant("path");
    let program = root().join(".run/bin/job");
    let (status, printed, _) = folder.run(&[program.to_str().unwrap(), "day", "ring", "4104"]);
    assert_eq!((status, &printed[..]), (1, "32 0\n"));
}

/// Forged, refused, mistyped and wrongly called: `inspect` says which; a mistyped path and a wrong call have exit statuses of
/// their own.
#[test]
fn inspect_has_statuses() {
    if !is_built() {
        return;
    }
    let folder = plant("statuses");
    put_forged(&folder, &[2]);
    folder.put("short", b"1234567");
    refused(&folder, &["inspect", "forged", "ring"], &["8 entries, 1 wrong"]);
    refused(&folder, &["inspect", "short", "ring"], &["run: 20: the file is shorter than 8 bytes", "short is 7 bytes"]);
    ends_with(&folder, &["inspect", "shrt", "ring"], 3, &["run: 20: shrt cannot be read: No such file or directory\n"]);
    wrong(&folder, &["inspect", "forged"], "1 arguments do not fit");
}

/// `./run` called through a link, also with CDPATH set.
#[test]
fn called_through_a_link() {
    if !is_built() {
        return;
    }
    let folder = plant("link");
    symlink(root().join("run"), folder.0.join("plant")).unwrap();
    for cdpath in ["", "CDPATH=/tmp:.:/"] {
        let (status, printed, said) = folder.shell(&format!("{cdpath} ./plant job day ring 4103"));
        assert!(status == 0 && printed.starts_with(DONE), "{said}");
    }
}

/// `./run` called by a path that the shell would look up in CDPATH.
#[test]
fn called_with_cdpath() {
    if !is_built() {
        return;
    }
    let folder = plant("cdpath");
    symlink(root(), folder.0.join("tree")).unwrap();
    let (status, printed, said) = folder.shell("CDPATH=/tmp:.:/ tree/run job day ring 4103");
    assert!(status == 0 && printed.starts_with(DONE), "{said}");
}

/// `./run` with a PATH that has no awk, and with one that has a few tools and neither awk nor rt.
#[test]
fn called_without_awk() {
    if !is_built() {
        return;
    }
    let folder = plant("tools");
    let tools = "bash env readlink cat find sha256sum sort xargs mktemp chmod chown mv rm head stat od uname nproc";
    for (name, is_in) in [
        ("most", &(|tool: &str| !["awk", "gawk", "mawk"].contains(&tool)) as &dyn Fn(&str) -> bool),
        ("few", &|tool: &str| tools.split(' ').any(|name| name == tool)),
    ] {
        let path = folder.0.join(name);
        std::fs::create_dir(&path).unwrap();
        let folders = std::env::var("PATH").unwrap();
        for tool in folders.split(':').filter_map(|folder| std::fs::read_dir(folder).ok()).flatten() {
            let tool = tool.unwrap().path();
            let file = tool.file_name().unwrap();
            if is_in(&file.to_string_lossy()) && !path.join(file).exists() {
                let _ = symlink(&tool, path.join(file));
            }
        }
        let (status, printed, said) = folder.shell(&format!("PATH=$PWD/{name}; \"$0\" job day ring 4103"));
        assert!(status == 0 && printed.starts_with(DONE), "{name}: {status} {said}");
    }
}

//! The plant's programs on real files, through `./run` and directly: what they print, the files that they write, the exit
//! status, and the state after a file could not be read or written. If the programs are not built from these sources
//! (`./run build`), each test prints that it is skipped.

mod folder;

use folder::{is_built, root, Folder, PROGRAMS};
use reference::data::printing::{self, PrintCall};
use reference::data::{files, samples};
use reference::plan::{Entry, Plan};
use reference::printed::ROOM;
use reference::shift::{self, rows};
use reference::{difference, editions, report, reseal, writer};
use std::process::{Command, Output};

/// Runs a built program directly, by its path.
fn program(folder: &Folder, name: &str, arguments: &[&str]) -> Output {
    let program = root().join(".run/bin").join(name);
    folder.command(&[program.to_str().unwrap()]).args(arguments).output().unwrap()
}

fn printed(folder: &Folder, name: &str, arguments: &[&str]) -> String {
    String::from_utf8(program(folder, name, arguments).stdout).unwrap()
}

/// Some runs of each kind from the data of `test_shift`, on files.
#[test]
fn what_is_printed() {
    if !is_built() {
        return;
    }
    let folder = Folder::new("printed");
    for call in printing::calls().iter().step_by(7) {
        let (name, files, job): (&str, Vec<&Vec<u8>>, Option<u32>) = match call {
            PrintCall::Job { file, ring, job } => ("job", vec![file, ring], Some(*job)),
            PrintCall::Current { amendment, day, ring, job } => ("current", vec![amendment, day, ring], Some(*job)),
            PrintCall::Differ { first, second } => ("differ", vec![first, second], None),
            PrintCall::Inspect { file, ring } => ("inspect", vec![file, ring], None),
        };
        let mut arguments: Vec<String> = vec![];
        for (i, bytes) in files.iter().enumerate() {
            folder.put(&i.to_string(), bytes);
            arguments.push(i.to_string());
        }
        arguments.extend(job.map(|job| job.to_string()));
        let arguments: Vec<&str> = arguments.iter().map(String::as_str).collect();
        assert_eq!(printed(&folder, name, &arguments), call.printed(), "{name}");
    }
}

/// A message of the greatest length, as text and in hex.
#[test]
fn the_longest_message() {
    if !is_built() {
        return;
    }
    let folder = Folder::new("longest");
    folder.put("ring", &samples::ring());
    for call in printing::calls() {
        if let PrintCall::Job { file, job: u32::MAX, .. } = &call {
            folder.put("file", file);
            assert!(printed(&folder, "job", &["file", "ring", "4294967295"]) == call.printed());
        }
    }
}

/// A good file of this length with jobs 1 to 20.
fn of_length(length: usize) -> Vec<u8> {
    let ring = samples::ring();
    let entry = |job: u32| Entry::new(job, 6, 0, 2, [job as u8; 16], b"");
    let mut plan = Plan::new((1..=20).map(entry).collect());
    let left = length - plan.file(&ring).len();
    for (i, entry) in plan.entries.iter_mut().enumerate() {
        entry.message = vec![b'.'; left / 20 + (i < left % 20) as usize];
    }
    let file = plan.file(&ring);
    assert_eq!((file.len(), shift::check(&file)), (length, (0, 0)));
    file
}

/// A missing file, a folder, and a file that is one byte too long count as zero bytes; the longest file is accepted.
#[test]
fn unreadable_and_oversized() {
    if !is_built() {
        return;
    }
    let folder = Folder::new("oversized");
    let (ring, day) = (samples::ring(), samples::day());
    folder.put("ring", &ring);
    folder.put("day", &day);
    folder.put("just", &of_length(ROOM));
    folder.put("over", &[of_length(ROOM), vec![0]].concat());
    std::fs::create_dir(folder.0.join("folder")).unwrap();
    assert_eq!(printed(&folder, "job", &["just", "ring", "3"]), reference::printed::job(&folder.get("just"), &ring, 3));
    assert_eq!(printed(&folder, "current", &["day", "just", "ring", "3"])[..6], *"0 2 0\n");
    // the last one can be opened but not read
    for bad in ["over", "missing", "folder", "", "/proc/self/mem"] {
        assert_eq!(printed(&folder, "job", &[bad, "ring", "3"]), "20 0\n");
        assert_eq!(printed(&folder, "current", &[bad, "day", "ring", "4103"]), "20 1 0\n");
        assert_eq!(printed(&folder, "current", &["day", bad, "ring", "4103"]), "20 2 0\n");
        assert_eq!(printed(&folder, "write", &["back", bad, "ring", "out"]), "20 0\n");
        assert_eq!(printed(&folder, "write", &["reseal", bad, "ring", "out"]), "20 0\n");
        assert_eq!(printed(&folder, "write", &[bad, "ring", "out"]), "20 0\n");
        assert_eq!(printed(&folder, "convert", &[bad, "out"]), "20 0\n");
        assert_eq!(printed(&folder, "convert", &["back", bad, "out"]), "20 0\n");
        assert_eq!(printed(&folder, "differ", &[bad, "day"]), "refused 1 20 0\n");
        assert_eq!(printed(&folder, "differ", &["day", bad]), "refused 2 20 0\n");
        assert_eq!(printed(&folder, "inspect", &[bad, "ring"]), "refused 20 0\n");
    }
    for bad in ["missing", "folder", "day"] {
        assert_eq!(printed(&folder, "job", &["day", bad, "4103"]), "2 0\n");
        assert_eq!(printed(&folder, "inspect", &["day", bad]), "refused 2 0\n");
    }
    assert_eq!(folder.names(), ["day", "folder", "just", "over", "ring"]);
}

/// `differ` and `inspect` accept 65,280 bytes and no more.
#[test]
fn small_files_alone() {
    if !is_built() {
        return;
    }
    let folder = Folder::new("small");
    let ring = samples::ring();
    folder.put("ring", &ring);
    let longest = difference::PROGRAM_LONGEST;
    folder.put("day", &samples::day());
    for length in [longest, longest + 1] {
        let file = of_length(length);
        folder.put("file", &file);
        assert_eq!(printed(&folder, "inspect", &["file", "ring"]), report::printed(&file, &ring));
        assert_eq!(printed(&folder, "differ", &["file", "day"]), difference::printed(&file, &samples::day()));
        assert_eq!(printed(&folder, "differ", &["day", "file"]), difference::printed(&samples::day(), &file));
    }
}

/// The result and the output of the reference implementation.
fn made(length: usize, pass: impl Fn(&mut [u8]) -> shift::Answer) -> (shift::Answer, Vec<u8>) {
    let mut out = vec![0; length];
    (pass(&mut out), out)
}

/// Every program that writes a file, byte for byte, to a new OUT and over an old one; in both directions.
#[test]
fn what_is_written() {
    if !is_built() {
        return;
    }
    let folder = Folder::new("written");
    let ring = samples::ring();
    folder.put("ring", &ring);
    let wide = Plan::new(vec![]).in_edition(2).file(&[]);
    let no_station = files::three_rows().without_stations();
    let drafts = [samples::draft(), files::three_rows().resuited(4, 6).draft(), Plan::new(vec![]).draft()];
    for draft in drafts {
        let (answer, file) = made(draft.len(), |out| writer::seal_file(&draft, &ring, out));
        assert_eq!(answer, (0, 0));
        folder.put("draft", &draft);
        assert_eq!(printed(&folder, "write", &["draft", "ring", "file"]), "0 0\n");
        assert!(folder.get("file") == file);
        assert_eq!(printed(&folder, "write", &["back", "file", "ring", "again"]), "0 0\n");
        assert!(folder.get("again") == draft);
    }
    for old in [samples::day(), files::three_rows().file(&ring)] {
        let (answer, file) = made(old.len(), |out| reseal::reseal(&old, &ring, out));
        assert_eq!(answer, (0, 0));
        folder.put("old", &old);
        assert_eq!(printed(&folder, "write", &["reseal", "old", "ring", "file"]), "0 0\n");
        assert!(folder.get("file") == file);
    }
    for one in [samples::day(), no_station.file(&ring), files::many_rows_plan(512).without_stations().file(&ring)] {
        let length = one.len() + 4 * rows(&one).len();
        let (answer, two) = made(length, |out| editions::to_edition2(&one, out));
        assert_eq!(answer, (0, 0));
        folder.put("one", &one);
        assert_eq!(printed(&folder, "convert", &["one", "two"]), "0 0\n");
        assert!(folder.get("two") == two);
        assert_eq!(printed(&folder, "convert", &["back", "two", "again"]), "0 0\n");
        assert!(folder.get("again") == one);
    }
    folder.put("empty", &wide);
    assert_eq!(printed(&folder, "convert", &["back", "empty", "file"]), "0 0\n");
    assert!(folder.get("file") == Plan::new(vec![]).file(&[]));
    assert_eq!(folder.names(), ["again", "draft", "empty", "file", "old", "one", "ring", "two"]);
}

/// A refusal leaves an existing OUT unchanged and creates no file.
#[test]
fn refused_and_left_alone() {
    if !is_built() {
        return;
    }
    let folder = Folder::new("refused");
    folder.put("ring", &samples::ring());
    folder.put("day", &samples::day());
    folder.put("stations", &samples::stations());
    folder.put("draft", &files::three_rows().draft());
    folder.put("out", b"as it was");
    let calls: [(&str, &[&str], &str); 8] = [
        ("write", &["day", "ring", "out"], "21 0\n"),
        ("write", &["draft", "ring", "out"], "10 2\n"),
        ("write", &["draft", "day", "out"], "10 2\n"),
        ("write", &["back", "stations", "ring", "out"], "21 0\n"),
        ("write", &["back", "day", "day", "new"], "2 0\n"),
        ("write", &["reseal", "draft", "ring", "out"], "21 0\n"),
        ("convert", &["stations", "out"], "21 0\n"),
        ("convert", &["back", "stations", "new"], "35 0\n"),
    ];
    for (name, arguments, expected) in calls {
        assert_eq!(printed(&folder, name, arguments), expected, "{name} {arguments:?}");
        assert_eq!(folder.get("out"), b"as it was");
    }
    assert_eq!(folder.names(), ["day", "draft", "out", "ring", "stations"]);
}

const NOT_WRITTEN: &str = "OUT cannot be written\n";

/// OUT is in a missing folder, is a folder, has too long a name, is on a full device, or may not grow. The program's first
/// line says so, and the old OUT and the inputs are unchanged.
#[test]
fn not_written() {
    if !is_built() {
        return;
    }
    let folder = Folder::new("unwritable");
    let (ring, draft, day) = (samples::ring(), samples::draft(), samples::day());
    folder.put("ring", &ring);
    folder.put("draft", &draft);
    folder.put("day", &day);
    std::fs::create_dir(folder.0.join("folder")).unwrap();
    let endless = "x".repeat(300);
    for out in ["missing/out", "folder", "/dev/full", "ring/out", &endless, ""] {
        assert_eq!(printed(&folder, "write", &["draft", "ring", out]), NOT_WRITTEN, "{out}");
        assert_eq!(printed(&folder, "write", &["reseal", "day", "ring", out]), NOT_WRITTEN, "{out}");
        assert_eq!(printed(&folder, "convert", &["day", out]), NOT_WRITTEN, "{out}");
        let (ended, printed, said) = folder.run(&["write", "draft", "ring", out]);
        assert_eq!((ended, &printed[..]), (3, NOT_WRITTEN));
        assert!(!said.contains("run: 0"));
    }
    // a device is written to, not replaced
    assert_eq!(printed(&folder, "write", &["draft", "ring", "/dev/null"]), "0 0\n");
    assert!(!std::fs::metadata("/dev/null").unwrap().is_file() && !std::fs::metadata("/dev/full").unwrap().is_file());
    // no file may grow: the program ignores the signal, so the write fails
    let program = root().join(".run/bin/write");
    let script = "trap '' XFSZ; ulimit -f 0; exec \"$0\" \"$@\"";
    for (input, out) in [("draft", "draft"), ("draft", "day"), ("draft", "new")] {
        let run = root().join("run");
        let mut command = Command::new("bash");
        command.args(["-c", script]).arg(run).arg(&program).args([input, "ring", out]).current_dir(&folder.0);
        assert_eq!(String::from_utf8(command.output().unwrap().stdout).unwrap(), NOT_WRITTEN);
    }
    assert_eq!((folder.get("draft"), folder.get("day")), (draft, day));
    assert_eq!(folder.names(), ["day", "draft", "folder", "ring"]);
}

/// OUT may be an input file.
#[test]
fn over_its_input() {
    if !is_built() {
        return;
    }
    let folder = Folder::new("input");
    let (ring, draft) = (samples::ring(), samples::draft());
    folder.put("ring", &ring);
    folder.put("file", &draft);
    assert_eq!(printed(&folder, "write", &["file", "ring", "file"]), "0 0\n");
    let (_, sealed) = made(draft.len(), |out| writer::seal_file(&draft, &ring, out));
    assert!(folder.get("file") == sealed);
    assert_eq!(printed(&folder, "write", &["file", "ring", "file"]), "21 0\n");
    assert!(folder.get("file") == sealed);
    assert_eq!(printed(&folder, "convert", &["file", "file"]), "0 0\n");
    assert_eq!(printed(&folder, "convert", &["back", "file", "file"]), "0 0\n");
    assert!(folder.get("file") == sealed);
    assert_eq!(printed(&folder, "write", &["back", "file", "ring", "file"]), "0 0\n");
    assert!(folder.get("file") == draft);
    assert_eq!(folder.names(), ["file", "ring"]);
}

/// The exit status of `./run`, and its message on a refusal.
#[test]
fn statuses() {
    if !is_built() {
        return;
    }
    let folder = Folder::new("statuses");
    let ring = samples::ring();
    folder.put("ring", &ring);
    folder.put("day", &samples::day());
    folder.put("amendment", &samples::amendment());
    folder.put("stations", &samples::stations());
    let mut wrong = samples::day();
    let tag = rows(&wrong)[2].tag();
    wrong[tag.start] ^= 1;
    folder.put("wrong", &wrong);
    let mut repeats = files::three_rows();
    files::fault(&mut repeats, 29, 2);
    folder.put("repeats", &repeats.file(&ring));
    let runs: [(&[&str], i32, &str, &str); 19] = [
        (&["job", "day", "ring", "4103"], 0, "0 0\nunit 2 inch-pounds\n", ""),
        (&["job", "day", "ring", "4104"], 1, "32 0\n", "run: 32: no row has the job\n"),
        (&["job", "wrong", "ring", "4103"], 1, "8 0\n", "run: 8: the tag differs\n"),
        (&["job", "day", "day", "4103"], 1, "2 0\n", "run: 2: the ring is not 256 bytes long\n"),
        (&["job", "missing", "ring", "4103"], 3, "20 0\n", "run: 20: missing cannot be read: No such file"),
        (
            &["job", "repeats", "ring", "10"],
            1,
            "29 2\n",
            "run: 29: row 2 (job 30) repeats the suite, key number and nonce",
        ),
        (&["current", "amendment", "day", "ring", "4102"], 0, "0 1 0\n", ""),
        (&["current", "amendment", "day", "ring", "1"], 1, "32 0 0\n", "run: 32: no row has the job\n"),
        (
            &["current", "amendment", "repeats", "ring", "1"],
            1,
            "29 2 2\n",
            "run: 29: the day's file: row 2 (job 30) repeats",
        ),
        (&["differ", "day", "day"], 0, "first\nsecond\ndiffer\n", ""),
        (&["differ", "repeats", "day"], 1, "refused 1 29 2\n", "run: 29: repeats: row 2 (job 30) repeats"),
        (&["inspect", "day", "ring"], 0, "entries 8\n", "run: 8 entries, every tag is right\n"),
        (&["inspect", "wrong", "ring"], 1, "entries 8\n", "run: 8 entries, 1 wrong: job 4103\n"),
        (&["inspect", "repeats", "ring"], 1, "refused 29 2\n", "run: 29: row 2 (job 30) repeats"),
        (&["convert", "day", "out"], 0, "0 0\n", ""),
        (&["convert", "back", "stations", "out"], 1, "35 0\n", "'s station is not 0\n"),
        (&["write", "back", "wrong", "ring", "out"], 1, "8 2\n", "run: 8: row 2 (job 4103): the tag differs\n"),
        (&["job", "day", "ring", "forty"], 2, "", "run: 'forty' is no job number"),
        (&["job", "day", "ring", "4294967296"], 2, "", "is no job number"),
    ];
    for (arguments, ends, starts, says) in runs {
        let (ended, printed, said) = folder.run(arguments);
        assert!(ended == ends && printed.starts_with(starts), "{arguments:?}: {ended} {printed}");
        assert!(said.contains(says) && (ends != 0 || said == says), "{arguments:?}: {said}");
    }
}

/// Wrong arguments, an unknown program, `./run help`: the message lists the programs with their arguments, and only `help`
/// prints to the standard output. A program called directly prints the same usage.
#[test]
fn usage() {
    if !is_built() {
        return;
    }
    let folder = Folder::new("usage");
    let (ended, help, _) = folder.run(&["help"]);
    assert_eq!(ended, 0);
    for name in PROGRAMS {
        let (ended, printed, said) = folder.run(&[name]);
        assert_eq!((ended, &printed[..]), (2, ""));
        let output = program(&folder, name, &["one"]);
        assert!(output.stdout.is_empty());
        for way in String::from_utf8(output.stderr).unwrap().lines() {
            assert!(way.starts_with(name) && help.contains(&format!("./run {way} ")) && said.contains(way));
        }
    }
    let (ended, printed, said) = folder.run(&["nosuch"]);
    assert_eq!((ended, &printed[..]), (2, ""));
    assert!(PROGRAMS.iter().all(|name| said.contains(&format!("./run {name} "))) && !said.contains("test_"));
    let (ended, printed, said) = folder.run(&[]);
    assert!(ended == 0 && printed.contains("unit 2 inch-pounds\n") && said.contains("./run help"));
}

/// Every status of the shift file and its tools has a line in library/words.c, whose last string `./run` prints.
#[test]
fn every_number_has_a_meaning() {
    let table = std::fs::read_to_string(root().join("library/words.c")).unwrap();
    for status in [0, 2, 6, 8, 10].into_iter().chain(20..=36) {
        let starts = [format!("    WORDS({status}, \""), format!("    FILE_WORDS({status}, \"")];
        let is_its = |line: &&str| line.ends_with("\")") && starts.iter().any(|start| line.starts_with(start));
        assert_eq!(table.lines().filter(is_its).count(), 1, "{status}");
    }
}

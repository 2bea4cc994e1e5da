//! Answers the cases of the conformance vectors with the reference implementation: reads one case per line from the standard
//! input and writes one answer per line to the standard output (vectors/README.md).
//!
//! ```text
//! adapter                    answers as the reference implementation does
//! adapter --mistake NAME     seals and opens with one deliberate mistake, to show that the runner finds it
//! adapter --mistakes         lists the mistakes
//! ```

use reference::vectors::answer::answer;
use reference::vectors::json::{Object, Value};
use reference::vectors::mistakes::{named, Mistake, MISTAKES};
use std::io::{BufRead, Write};
use std::process::exit;

fn list() -> ! {
    MISTAKES
        .iter()
        .for_each(|(_, name, what)| println!("{name}: {what}"));
    exit(0)
}

fn chosen(arguments: &[String]) -> Mistake {
    match arguments.iter().map(String::as_str).collect::<Vec<_>>()[..] {
        [] => Mistake::None,
        ["--mistakes"] => list(),
        ["--mistake", name] if named(name).is_some() => named(name).expect("a mistake"),
        _ => {
            eprintln!("usage: adapter [--mistakes | --mistake NAME]");
            exit(2)
        }
    }
}

/// The answer to a line, as a line that begins with the case's id.
fn answered(line: &str, mistake: Mistake) -> String {
    let case = Object::parse(line).unwrap_or_else(|| panic!("not a flat JSON object: {line}"));
    let id = ("id".to_string(), Value::Number(case.number_of("id")));
    let fields = match answer(&case, mistake) {
        Some(answer) => answer.0,
        None => vec![("skipped".to_string(), Value::Number(1))],
    };
    Object(std::iter::once(id).chain(fields).collect()).to_string()
}

fn main() {
    let arguments: Vec<String> = std::env::args().skip(1).collect();
    let mistake = chosen(&arguments);
    let mut to = std::io::stdout().lock();
    for line in std::io::stdin().lock().lines() {
        writeln!(to, "{}", answered(&line.expect("a line"), mistake)).expect("the standard output");
    }
}

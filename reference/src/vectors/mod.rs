//! The conformance vectors of the folder vectors/: cases, and the answers of the reference implementation to them.

pub mod answer;
pub mod bytes;
pub mod json;
pub mod mistakes;
pub mod rules;
pub mod sha256;

mod files;
mod pairs;
mod records;
mod sessions;
mod writing;

use answer::answer;
use bytes::{answer_text, bytes_of};
use json::{Object, Value};
use mistakes::Mistake;
use std::collections::BTreeSet;

/// The version of the schema, which vectors/README.md describes.
pub const SCHEMA: &str = "snoekeldraf-vectors-1";

/// One case: what it tests, the rule that it tests, what the program reads, and the right answer.
#[derive(Clone)]
pub struct Test {
    pub comment: String,
    pub rule: &'static str,
    pub case: Object,
    pub answer: Object,
}

/// The case with its answer, after a check that its status is the expected one.
pub fn test(comment: impl Into<String>, rule: &'static str, case: Object, status: u32) -> Test {
    let comment = comment.into();
    let answer = answer(&case, Mistake::None).expect("a call");
    let statuses = match answer.0[0].1 {
        Value::Number(number) => vec![number],
        Value::Text(ref list) => list.split(' ').map(|number| number.parse().unwrap()).collect(),
    };
    assert_eq!(statuses.into_iter().find(|number| *number != 0).unwrap_or(0), status as u64, "{comment}");
    Test { comment, rule, case, answer }
}

impl Test {
    fn is_valid(&self) -> bool {
        match &self.answer.0[0].1 {
            Value::Number(number) => *number == 0,
            Value::Text(list) => list.split(' ').all(|number| number == "0"),
        }
    }

    /// The answer as the file contains it, with long byte strings as digests.
    fn shortened(&self) -> Object {
        let shorten = |(name, value): &(String, Value)| match value {
            Value::Text(text) if ["out", "tag"].contains(&&name[..]) => {
                (name.clone(), Value::Text(answer_text(&bytes_of(text))))
            }
            _ => (name.clone(), value.clone()),
        };
        Object(self.answer.0.iter().map(shorten).collect())
    }

    fn line(&self, id: usize) -> String {
        let Test { comment, rule, case, .. } = self;
        let result = if self.is_valid() { "valid" } else { "invalid" };
        let start =
            format!("{{\"id\": {id}, \"comment\": \"{comment}\", \"rule\": \"{rule}\", \"result\": \"{result}\"");
        format!("    {start},\n     \"case\": {case},\n     \"answer\": {}}}", self.shortened())
    }
}

/// The text of one file: its subject, the rules that it tests, and its cases.
fn written(about: &str, tests: &[Test]) -> String {
    let names: BTreeSet<&str> = tests.iter().map(|test| test.rule).collect();
    let rule = |name: &str| {
        let (name, section, text) = rules::rule(name);
        format!("    \"{name}\": {{\"section\": \"{section}\", \"text\": \"{text}\"}}")
    };
    let rules = names.into_iter().map(rule).collect::<Vec<_>>().join(",\n");
    let lines = tests.iter().enumerate().map(|(i, test)| test.line(i + 1)).collect::<Vec<_>>().join(",\n");
    let head = format!("  \"schema\": \"{SCHEMA}\",\n  \"about\": \"{about}\",\n  \"tests\": {},\n", tests.len());
    format!("{{\n{head}  \"rules\": {{\n{rules}\n  }},\n  \"cases\": [\n{lines}\n  ]\n}}\n")
}

/// The cases of mistakes.json.
pub fn mistake_tests() -> Vec<Test> {
    records::mistakes()
}

/// Every file of vectors/, as its name and its text.
pub fn parts() -> Vec<(&'static str, String)> {
    let file = |name, about: &str, tests: Vec<Test>| (name, written(about, &tests));
    vec![
        file("ciphers.json", "one block under each suite's cipher; the published vectors first", records::ciphers()),
        file("records.json", "sealing and opening records, every suite", records::records()),
        file("statuses.json", "the statuses of sealing and opening, alone and beside later ones", records::statuses()),
        file("mistakes.json", "ciphertexts and tags of implementations with one mistake", records::mistakes()),
        file("sessions.json", "records sealed in parts", sessions::tests()),
        file("files.json", "shift files: the full check, statuses 20 to 31 and 34", files::checks()),
        file("jobs.json", "shift files: lookup, search, opening a job", files::jobs()),
        file("drafts.json", "sealing drafts, unsealing and resealing files", writing::drafts()),
        file("editions.json", "moving files from edition 1 to 2 and back", writing::editions()),
        file("amendments.json", "the current entry of a job in two files", pairs::amendments()),
        file("comparisons.json", "two files compared", pairs::comparisons()),
        file("reports.json", "every tag of a file", pairs::reports()),
    ]
}

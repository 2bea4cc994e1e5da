//! Cases on records sealed in parts: sessions.json. Unless a comment says otherwise, every part's output has exactly the
//! length that it needs.

use super::bytes::ruled_text;
use super::json::{Object, Value};
use super::{test, Test};
use crate::comet::{block_size, nonce_size, LIMIT, SEALED};
use crate::random::Random;

/// A record to be sealed by a session.
struct Record {
    suite: u8,
    size: usize,
    start: Object,
    ad: usize,
    msg: usize,
}

impl Record {
    fn new(random: &mut Random, suite: u8, ad: usize, msg: usize) -> Record {
        let [key, nonce, data, message] = [16, nonce_size(suite), ad, msg].map(|len| random.bytes(len));
        let start = Object::call("session").number("suite", suite).bytes("key", &key).bytes("nonce", &nonce);
        let start = start.bytes("ad", &data).bytes("msg", &message);
        Record { suite, size: block_size(suite), start, ad, msg }
    }

    fn case(&self, steps: &[String]) -> Object {
        self.start.clone().text("steps", steps.join(" "))
    }

    fn part(&self, len: usize) -> String {
        format!("m{len}:{}", len + self.size - 1)
    }

    fn end(&self) -> String {
        format!("e{0}:{0}", self.size)
    }

    /// The case that passes both texts in parts of these lengths, used cyclically.
    fn cut(&self, ad_parts: &[usize], parts: &[usize]) -> Object {
        let mut steps: Vec<String> = lengths(self.ad, ad_parts).iter().map(|len| format!("a{len}")).collect();
        steps.extend(lengths(self.msg, parts).iter().map(|len| self.part(*len)));
        steps.push(self.end());
        self.case(&steps)
    }

    /// The case with these steps; `E` is the end, and `mN` a part with an output of exactly the length that it needs.
    fn words(&self, words: &str) -> Object {
        let word = |word: &str| match word.strip_prefix('m') {
            Some(len) if !word.contains(':') => self.part(len.parse().expect("a length")),
            _ if word == "E" => self.end(),
            _ => word.to_string(),
        };
        self.case(&words.split(' ').filter(|word| !word.is_empty()).map(word).collect::<Vec<_>>())
    }
}

/// A total cut into these lengths, used cyclically; the last part may be shorter.
fn lengths(total: usize, cuts: &[usize]) -> Vec<usize> {
    let mut left = total;
    let mut parts = vec![];
    for cut in cuts.iter().cycle() {
        if left == 0 {
            break;
        }
        parts.push(left.min(*cut));
        left -= left.min(*cut);
    }
    parts
}

fn cuttings(random: &mut Random, suite: u8) -> Vec<Test> {
    let size = block_size(suite);
    let record = Record::new(random, suite, 2 * size + 3, 3 * size + 5);
    let cuts: [(&str, Vec<usize>); 8] = [
        ("whole", vec![1000]),
        ("byte by byte", vec![1]),
        ("one block a part", vec![size]),
        ("one byte less than a block", vec![size - 1]),
        ("one byte more than a block", vec![size + 1]),
        ("two blocks a part", vec![2 * size]),
        ("parts of 3, 0, 7, 1 and 0 bytes", vec![3, 0, 7, 1, 0]),
        ("an empty part first", vec![0, 2 * size + 1]),
    ];
    let cut = |(what, cuts): &(&str, Vec<usize>)| {
        test(format!("suite {suite}: {what}"), "session", record.cut(cuts, cuts), 0)
    };
    let mut tests: Vec<Test> = cuts.iter().map(cut).collect();
    for (ad, msg) in [(0, 0), (size, 0), (0, size), (size, size), (1, 0), (0, 1)] {
        let record = Record::new(random, suite, ad, msg);
        let comment = format!("suite {suite}: {ad} bytes of associated data, {msg} of message, byte by byte");
        tests.push(test(comment, "session", record.cut(&[1], &[1]), 0));
    }
    tests
}

fn refusals(random: &mut Random, suite: u8) -> Vec<Test> {
    let size = block_size(suite);
    let record = Record::new(random, suite, 8, 2 * size + 2);
    let all = 2 * size + 2;
    let (narrow, exact) = (all + size - 2, all + size - 1);
    let (short, less) = (size - 1, size - 1);
    let cases = [
        (9, "associated data after the first message byte", format!("a4 m1 a4 m{} E", all - 1)),
        (9, "an empty part of associated data after the first message byte", format!("a8 m1 a0 m{} E", all - 1)),
        (0, "an empty message part does not begin the message", format!("a4 m0 a4 m{all} E")),
        (6, "an output one byte too short, then long enough", format!("a8 m{all}:{narrow} m{all}:{exact} E")),
        (6, "an output at the end one byte too short, then long enough", format!("a8 m{all} e{short}:{size} E")),
        (7, "a tag buffer one byte too short, then right", format!("a8 m{all} e{size}:{less} E")),
        (6, "at the end 6 comes before 7", format!("a8 m{all} e{short}:{less} E")),
        (9, "every call after the end", format!("a8 m{all} E a0 m0 E")),
    ];
    cases
        .into_iter()
        .map(|(status, what, words)| test(format!("suite {suite}: {what}"), "session", record.words(&words), status))
        .collect()
}

/// A refused start, and the statuses of the calls after it.
fn starts(random: &mut Random) -> Vec<Test> {
    let record = Record::new(random, 3, 4, 4);
    let words = |case: Object| case.text("steps", "a4 m4:11 e8:8");
    let suite = |suite| record.start.clone().changed("suite", Value::Number(suite));
    let key = |case: Object| case.changed("key", Value::Text("00".into()));
    let nonce = |case: Object| case.changed("nonce", Value::Text("00".into()));
    let cases = [
        (1, "no suite 0", suite(0)),
        (1, "no suite 7, beside 2 and 3", key(nonce(suite(7)))),
        (10, "suite 4 is retired", suite(4)),
        (10, "suite 4, beside 2 and 3", key(nonce(suite(4)))),
        (2, "a key of one byte", key(suite(3))),
        (2, "a key and a nonce of one byte", key(nonce(suite(3)))),
        (3, "a nonce of one byte", nonce(suite(3))),
    ];
    let start = |(status, what, case): (u32, &str, Object)| {
        test(format!("start refused, then 9: {what}"), "session", words(case), status)
    };
    cases.into_iter().map(start).collect()
}

/// 4 and 5 of the running totals.
fn totals(random: &mut Random, suite: u8) -> Vec<Test> {
    let record = Record::new(random, suite, 0, 0);
    let long = |name: &str, words: &str| {
        let text = ruled_text(LIMIT + 1, suite as usize);
        record.words(words).changed(name, Value::Text(text))
    };
    let out = LIMIT + record.size - 1;
    let all = format!("m{LIMIT}:{out} m1:100 m0:100 E");
    let both = format!("m{LIMIT}:{out} m1:0 E");
    let comment = |what: &str| format!("suite {}: {what}", record.suite);
    vec![
        test(comment("65,536 bytes of associated data, then one more"), "session", long("ad", "a65536 a1 a0 E"), 4),
        test(comment("65,536 bytes of message, then one more"), "session", long("msg", &all), 5),
        test(comment("5 comes before 6"), "session", long("msg", &both), 5),
    ]
}

pub fn tests() -> Vec<Test> {
    let mut random = Random::new(86);
    let mut tests = starts(&mut random);
    for suite in SEALED {
        tests.extend(cuttings(&mut random, suite));
        tests.extend(refusals(&mut random, suite));
    }
    for suite in [1, 3] {
        tests.extend(totals(&mut random, suite));
    }
    tests
}

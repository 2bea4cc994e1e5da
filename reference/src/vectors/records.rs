//! Cases on records: ciphers.json, records.json, statuses.json and mistakes.json.

use super::bytes::{bytes_of, ruled_text, text_of};
use super::json::{Object, Value};
use super::mistakes::{self, Mistake, MISTAKES};
use super::{test, Test};
use crate::comet::{block_size, is_retired, nonce_size, specified, version_of, Version, LIMIT, SEALED, SUITES};
use crate::data::vectors::PUBLISHED;
use crate::random::Random;
use crate::show::unhex;

const RANDOM_OF_EACH: usize = 6;

fn cipher_case(suite: u8, key: &[u8], block: &[u8]) -> Object {
    Object::call("cipher").number("suite", suite).bytes("key", key).bytes("block", block)
}

pub fn ciphers() -> Vec<Test> {
    let published = |(source, suite, key, block, encrypted): &(&str, u8, &str, &str, &str)| {
        let made = test(*source, "cipher", cipher_case(*suite, &unhex(key), &unhex(block)), 0);
        assert_eq!(made.answer.bytes_of("out"), unhex(encrypted));
        made
    };
    let mut tests: Vec<Test> = PUBLISHED.iter().map(published).collect();
    let mut random = Random::new(81);
    for suite in 1..=4 {
        for _ in 0..RANDOM_OF_EACH {
            let (key, block) = (random.bytes(16), random.bytes(block_size(suite)));
            tests.push(test(format!("cipher of suite {suite}, random"), "cipher", cipher_case(suite, &key, &block), 0));
        }
    }
    tests
}

/// A record as the vectors write it: each field is the text of a byte string.
#[derive(Clone)]
struct Record {
    suite: u8,
    key: String,
    nonce: String,
    ad: String,
    msg: String,
}

impl Record {
    fn random(random: &mut Random, suite: u8, ad: usize, msg: usize) -> Record {
        let [key, nonce, ad, msg] = [16, nonce_size(suite), ad, msg].map(|len| text_of(&random.bytes(len)));
        Record { suite, key, nonce, ad, msg }
    }

    fn start(&self, call: &str) -> Object {
        let start = Object::call(call).number("suite", self.suite).text("key", &self.key);
        start.text("nonce", &self.nonce).text("ad", &self.ad)
    }

    fn sealing(&self) -> Object {
        let len = bytes_of(&self.msg).len();
        let case = self.start("seal").text("msg", &self.msg).number("out_len", len as u64);
        case.number("tag_len", block_size(self.suite) as u64)
    }

    fn opening(&self, text: &[u8], tag: &[u8]) -> Object {
        let case = self.start("open").bytes("text", text).bytes("tag", tag);
        case.number("out_len", text.len() as u64)
    }

    /// The specification's ciphertext and tag.
    fn sealed(&self) -> (Vec<u8>, Vec<u8>) {
        let [key, nonce, ad, msg] = [&self.key, &self.nonce, &self.ad, &self.msg].map(|text| bytes_of(text));
        specified(self.suite, &key, &nonce, &ad, &msg)
    }

    /// The cases that seal the record, unless the suite is retired, and that open it.
    fn both(&self, what: &str, rule: &'static str) -> Vec<Test> {
        let (text, tag) = self.sealed();
        let name = |verb: &str| format!("suite {}: {verb}, {what}", self.suite);
        let sealed = (!is_retired(self.suite)).then(|| test(name("seal"), rule, self.sealing(), 0));
        sealed.into_iter().chain([test(name("open"), rule, self.opening(&text, &tag), 0)]).collect()
    }
}

/// Lengths of associated data and message, each as blocks plus or minus bytes, and what they test.
const SHAPES: [(i64, i64, i64, i64, &str); 16] = [
    (0, 0, 0, 0, "both texts empty: one mark, 80"),
    (0, 1, 0, 0, "one byte of associated data"),
    (0, 0, 0, 1, "one byte of message"),
    (1, -1, 0, 0, "associated data one byte short of a block"),
    (1, 0, 0, 0, "one full block of associated data"),
    (1, 1, 0, 0, "associated data one byte over a block"),
    (0, 0, 1, -1, "message one byte short of a block"),
    (0, 0, 1, 0, "one full block of message"),
    (0, 0, 1, 1, "message one byte over a block"),
    (0, 5, 0, 3, "job number and unit, and a short message"),
    (0, 5, 1, 0, "job number and unit, and a full block"),
    (1, 0, 1, 0, "both texts one full block"),
    (2, 0, 2, 0, "both texts two full blocks"),
    (2, -1, 2, -1, "both texts two blocks, the last one short"),
    (1, 1, 3, 5, "both texts end in a short block"),
    (3, 3, 8, 0, "eight full blocks of message"),
];

pub fn records() -> Vec<Test> {
    let mut random = Random::new(82);
    let mut tests = vec![];
    for suite in SUITES {
        let size = block_size(suite) as i64;
        for (ad_blocks, ad, blocks, msg, what) in SHAPES {
            let record =
                Record::random(&mut random, suite, (ad_blocks * size + ad) as usize, (blocks * size + msg) as usize);
            tests.extend(record.both(what, if version_of(suite) == Version::Two { "version 2" } else { "sealing" }));
        }
        tests.extend(longest(suite));
        tests.extend(altered(&mut random, suite));
        tests.extend(exchanged(&mut random, suite));
    }
    tests
}

/// Texts of 65,536 bytes by the rule of `ruled`.
fn longest(suite: u8) -> Vec<Test> {
    let mut random = Random::new(83);
    let empty = Record::random(&mut random, suite, 0, 0);
    let long = ruled_text(LIMIT, suite as usize);
    let message = Record { msg: long.clone(), ..empty.clone() };
    let data = Record { ad: long, ..empty };
    let mut tests = data.both("65,536 bytes of associated data", "sealing");
    if !is_retired(suite) {
        tests.push(test(format!("suite {suite}: seal, 65,536 bytes of message"), "sealing", message.sealing(), 0));
    }
    // the ciphertext is written by its rule, so that the case stays short
    let text = bytes_of(&message.msg);
    let [key, nonce] = [&message.key, &message.nonce].map(|part| bytes_of(part));
    let tag = crate::comet::fitting_tag(suite, &key, &nonce, &[], &text);
    let case = message.opening(&text, &tag).changed("text", Value::Text(message.msg.clone()));
    tests.push(test(format!("suite {suite}: open, 65,536 bytes of ciphertext"), "sealing", case, 0));
    tests
}

/// The case with one bit of a byte string inverted.
fn flipped(case: &Object, name: &str, byte: usize, bit: u32) -> Object {
    let mut bytes = case.bytes_of(name);
    bytes[byte] ^= 1 << bit;
    case.clone().changed(name, Value::Text(text_of(&bytes)))
}

/// A record opened with one bit inverted, in each of its parts.
fn altered(random: &mut Random, suite: u8) -> Vec<Test> {
    let size = block_size(suite);
    let record = Record::random(random, suite, size + 5, 2 * size + 3);
    let (text, tag) = record.sealed();
    let case = record.opening(&text, &tag);
    let mut places = vec![("key", 0, 0), ("key", 15, 7), ("nonce", 0, 0), ("nonce", nonce_size(suite) - 1, 7)];
    for (name, len) in [("ad", size + 5), ("text", 2 * size + 3), ("tag", size)] {
        places.extend([(name, 0, 0), (name, len / 2, 3), (name, len - 1, 7)]);
    }
    places.push(("ad", 4, 1));
    let flip = |(name, byte, bit): &(&str, usize, u32)| {
        let comment = format!("suite {suite}: open, bit {bit} of byte {byte} of {name} is inverted");
        test(comment, if *name == "tag" { "tag" } else { "sealing" }, flipped(&case, name, *byte, *bit), 8)
    };
    places.iter().map(flip).collect()
}

/// Records combined from two others, truncated, or opened under another suite.
fn exchanged(random: &mut Random, suite: u8) -> Vec<Test> {
    let size = block_size(suite);
    let record = Record::random(random, suite, size, 2 * size);
    let other = Record { nonce: text_of(&random.bytes(nonce_size(suite))), ..record.clone() };
    let ((text, tag), (other_text, other_tag)) = (record.sealed(), other.sealed());
    let moved = Record { ad: format!("{}+{}", record.ad, text_of(&text[..size])), ..record.clone() };
    let next = *SUITES.iter().find(|next| **next != suite && block_size(**next) == size).expect("another suite");
    let under_next = Record { suite: next, ..record.clone() };
    let swapped = [&text[size..], &text[..size]].concat();
    let zeros = vec![0; size];
    let cases = [
        ("the tag of the record under another nonce", record.opening(&text, &other_tag)),
        ("the ciphertext of the record under another nonce", record.opening(&other_text, &tag)),
        ("the last block of the ciphertext is left out", record.opening(&text[..size], &tag)),
        ("the last byte of the ciphertext is left out", record.opening(&text[..2 * size - 1], &tag)),
        ("two blocks of the ciphertext are exchanged", record.opening(&swapped, &tag)),
        ("the first ciphertext block is moved to the associated data", moved.opening(&text[size..], &tag)),
        ("a tag of zeros", record.opening(&text, &zeros)),
    ];
    let mut tests: Vec<Test> =
        cases.map(|(what, case)| test(format!("suite {suite}: open, {what}"), "tag", case, 8)).into_iter().collect();
    let what = format!("suite {next}: open, a record of suite {suite}");
    tests.push(test(what, "cipher", under_next.opening(&text, &tag), 8));
    for len in [0, 1, size - 1, size + 1] {
        let tag: Vec<u8> = tag.iter().copied().cycle().take(len).collect();
        let comment = format!("suite {suite}: open, {len} bytes of the right tag");
        tests.push(test(comment, "order", record.opening(&text, &tag), 7));
    }
    tests
}

/// The case with the fault of one status.
fn with_fault(case: Object, status: u32) -> Object {
    let cut = |case: Object, name: &str| {
        let bytes = case.bytes_of(name);
        case.changed(name, Value::Text(text_of(&bytes[1..])))
    };
    let text = if case.text_of("call") == "seal" { "msg" } else { "text" };
    match status {
        1 => case.changed("suite", Value::Number(7)),
        2 => cut(case, "key"),
        3 => cut(case, "nonce"),
        4 => case.changed("ad", Value::Text(ruled_text(LIMIT + 1, 0))),
        5 => case
            .changed(text, Value::Text(ruled_text(LIMIT + 1, 0)))
            .changed("out_len", Value::Number(LIMIT as u64 + 1)),
        6 => {
            let len = case.number_of("out_len");
            case.changed("out_len", Value::Number(len + 1))
        }
        7 if text == "msg" => {
            let len = case.number_of("tag_len");
            case.changed("tag_len", Value::Number(len - 1))
        }
        7 => cut(case, "tag"),
        8 => flipped(&case, "ad", 0, 0),
        _ => unreachable!("no fault {status}"),
    }
}

/// Each status of `order` alone, and together with each later one.
fn in_order(case: &Object, order: &[u32], also: &str) -> Vec<Test> {
    let mut tests = vec![];
    let call = case.text_of("call").to_string();
    for (index, status) in order.iter().enumerate() {
        let alone = with_fault(case.clone(), *status);
        tests.push(test(format!("{call}{also}: status {status} alone"), "order", alone.clone(), *status));
        // not 4 with 8: the fault of 8 inverts a bit of the associated data, which the fault of 4 has replaced
        for later in order[index + 1..].iter().filter(|later| (*status, **later) != (4, 8)) {
            let both = with_fault(alone.clone(), *later);
            tests.push(test(format!("{call}{also}: status {status} beside {later}"), "order", both, *status));
        }
    }
    tests
}

pub fn statuses() -> Vec<Test> {
    let mut random = Random::new(84);
    let mut tests = vec![];
    for suite in [1, 3] {
        let record = Record::random(&mut random, suite, 7, 20);
        let (text, tag) = record.sealed();
        let also = format!(", suite {suite}");
        tests.extend(in_order(&record.sealing(), &[1, 2, 3, 4, 5, 6, 7], &also));
        tests.extend(in_order(&record.opening(&text, &tag), &[1, 2, 3, 4, 5, 6, 7, 8], &also));
    }
    let retired = Record::random(&mut random, 4, 7, 20);
    tests.push(test("seal: suite 4 is retired", "order", retired.sealing(), 10));
    for later in 2..=7 {
        let case = with_fault(retired.sealing(), later);
        tests.push(test(format!("seal: suite 4 beside {later}"), "order", case, 10));
    }
    for suite in [0, 7, 8, 255] {
        let case = retired.sealing().changed("suite", Value::Number(suite));
        tests.push(test(format!("seal: there is no suite {suite}"), "order", case, 1));
    }
    for (suite, len) in [(1u8, 15), (1, 17), (3, 16), (3, 14), (6, 16)] {
        let mut record = Record::random(&mut random, suite, 5, 4);
        record.nonce = text_of(&random.bytes(len));
        tests.push(test(format!("seal: suite {suite} with a nonce of {len} bytes"), "order", record.sealing(), 3));
    }
    tests
}

/// Lengths at which a mistake changes the result, and the rule that it breaks.
fn shape_of(mistake: Mistake, size: usize) -> (usize, usize, &'static str) {
    match mistake {
        Mistake::RotatedDoubling | Mistake::DoubledHighHalf | Mistake::ForgottenDoubling => {
            (size + 2, 2 * size + 1, "doubling")
        }
        Mistake::PaddedFullBlock => (size, 2 * size, "padding"),
        Mistake::MarkedFullBlock => (size, 2 * size, "marks"),
        Mistake::MarkedEmptyMessage => (5, 0, "marks"),
        Mistake::AbsorbedCiphertext => (5, 2 * size + 1, "absorbing"),
        Mistake::ComparedFirstBytes => (5, 2 * size + 1, "tag"),
        Mistake::WipedLastBlock => (5, 3 * size + 1, "after 8"),
        Mistake::OtherVersion | Mistake::None => (size + 2, 2 * size + 1, "version 2"),
    }
}

/// The mistakes that only an opener can make.
const OPENERS: [Mistake; 2] = [Mistake::ComparedFirstBytes, Mistake::WipedLastBlock];

/// A record whose tag the mistake changes; for a mistake of the opener alone, any record.
fn showing(random: &mut Random, mistake: Mistake, suite: u8) -> Record {
    let (ad, msg, _) = shape_of(mistake, block_size(suite));
    loop {
        let record = Record::random(random, suite, ad, msg);
        if OPENERS.contains(&mistake) || wrong_pair(mistake, &record).1 != record.sealed().1 {
            return record;
        }
    }
}

fn wrong_pair(mistake: Mistake, record: &Record) -> (Vec<u8>, Vec<u8>) {
    let [key, nonce, ad, msg] = [&record.key, &record.nonce, &record.ad, &record.msg].map(|text| bytes_of(text));
    mistakes::seal(mistake, record.suite, &key, &nonce, &ad, &msg)
}

/// The cases of a mistake under a suite: the right record, and what a sealer with the mistake outputs, which must not open.
fn mistaken(random: &mut Random, (mistake, name, what): (Mistake, &str, &str), suite: u8) -> Vec<Test> {
    let rule = shape_of(mistake, block_size(suite)).2;
    let record = showing(random, mistake, suite);
    let (right, tag) = record.sealed();
    let (mut text, mut wrong) = wrong_pair(mistake, &record);
    text.truncate(right.len());
    if wrong == tag {
        *wrong.last_mut().expect("a tag") ^= 1;
    }
    let mut tests = record.both(&format!("{name}: the right record (the mistake: {what})"), rule);
    let made = if OPENERS.contains(&mistake) { "a wrong tag" } else { "sealed with the mistake" };
    let comment = format!("suite {suite}: open, {name}: {made} ({what})");
    tests.push(test(comment, rule, record.opening(&text, &wrong), 8));
    if text != right {
        let comment = format!("suite {suite}: open, {name}: its tag with the right ciphertext");
        tests.push(test(comment, rule, record.opening(&right, &wrong), 8));
    }
    tests
}

pub fn mistakes() -> Vec<Test> {
    let mut random = Random::new(85);
    let mut tests = vec![];
    for entry in MISTAKES {
        for suite in SUITES {
            tests.extend(mistaken(&mut random, entry, suite));
        }
    }
    for suite in SEALED {
        tests.extend(tag_bytes(&mut random, suite));
    }
    tests
}

/// A wrong tag in each of its bytes.
fn tag_bytes(random: &mut Random, suite: u8) -> Vec<Test> {
    let record = Record::random(random, suite, 5, 9);
    let (text, tag) = record.sealed();
    let case = record.opening(&text, &tag);
    let wrong = |byte: usize| {
        let comment = format!("suite {suite}: open, byte {byte} of the tag is wrong");
        test(comment, "tag", flipped(&case, "tag", byte, 7), 8)
    };
    (0..tag.len()).map(wrong).collect()
}

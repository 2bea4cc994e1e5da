//! Cases on functions that write files: drafts.json (sealing, unsealing, resealing) and editions.json.

use super::files::{patched, rule_of};
use super::json::{Object, Value};
use super::{test, Test};
use crate::data::files::{fault, long_file, smallest_plan, three_rows, OF_ROWS, ORDER};
use crate::data::samples;
use crate::editions::moved_length;
use crate::plan::{Entry, Plan};
use crate::shift::{fields_at, row_at, rows, LONGEST};

fn written(call: &str, file: &[u8]) -> Object {
    let case = Object::call(call).bytes("file", file).bytes("ring", &samples::ring());
    case.number("out_len", file.len() as u64)
}

/// The case with a ring of another length and an output that is `more` bytes longer.
fn with_lengths(case: &Object, ring: usize, more: u64) -> Object {
    let short = crate::show::hex(&samples::ring()[..ring]);
    let len = case.number_of("out_len");
    case.clone().changed("ring", Value::Text(short)).changed("out_len", Value::Number(len + more))
}

/// `three_rows` without suite 4, so that its draft can be sealed.
fn sealable() -> Plan {
    three_rows().resuited(4, 6).without_stations()
}

fn seals() -> Vec<Test> {
    let drafts = [
        ("no rows", Plan::new(vec![]).draft()),
        ("the smallest row", smallest_plan().draft()),
        ("three rows", sealable().draft()),
        ("the sample draft", samples::draft()),
    ];
    let mut tests: Vec<Test> = drafts
        .iter()
        .map(|(what, draft)| test(format!("seal a draft: {what}"), "draft", written("seal_file", draft), 0))
        .collect();
    for status in ORDER.into_iter().filter(|status| ![22, 24].contains(status)) {
        let mut plan = sealable();
        fault(&mut plan, status, if OF_ROWS.contains(&status) { 1 } else { 0 });
        let case = with_lengths(&written("seal_file", &plan.draft()), 255, 1);
        tests.push(test(format!("seal a draft: {status}, beside 2 and 6"), rule_of(status), case, status));
    }
    let file = samples::day();
    tests.push(test("seal a draft: 21, it is a sealed file", rule_of(21), written("seal_file", &file), 21));
    tests.extend(seal_order());
    tests
}

/// 33, 10, 2 and 6, alone and together with later ones.
fn seal_order() -> Vec<Test> {
    let draft = sealable().draft();
    let retired = three_rows().without_stations().draft();
    let tagged = |draft: &[u8], row: usize| patched(draft, rows(draft)[row].tag().end - 1, &[1]);
    let (good, of_4) = (written("seal_file", &draft), written("seal_file", &retired));
    let both = tagged(&tagged(&draft, 1), 2);
    let cases = [
        (33, "status 33", "33 in row 2", written("seal_file", &tagged(&draft, 2))),
        (33, "status 33", "33 in rows 1 and 2", written("seal_file", &both)),
        (33, "status 33", "33 before 10, 2 and 6", with_lengths(&written("seal_file", &tagged(&retired, 2)), 255, 1)),
        (33, "status 33", "33 in row 0 with 10 in row 2", written("seal_file", &tagged(&retired, 0))),
        (10, "draft", "10: row 2 has suite 4", of_4.clone()),
        (10, "draft", "10 before 2 and 6", with_lengths(&of_4, 255, 1)),
        (2, "draft", "2: a ring of 255 bytes", with_lengths(&good, 255, 0)),
        (2, "draft", "2 before 6", with_lengths(&good, 255, 1)),
        (6, "draft", "6: an output one byte too long", with_lengths(&good, 256, 1)),
    ];
    let order = |(status, rule, what, case)| test(format!("seal a draft: {what}"), rule, case, status);
    cases.into_iter().map(order).collect()
}

fn unseals() -> Vec<Test> {
    let day = samples::day();
    let wrong = |file: &[u8], row: usize| {
        let at = rows(file)[row].tag().start;
        patched(file, at, &[!file[at]])
    };
    let two = wrong(&wrong(&day, 5), 2);
    let cases = [
        (0, "the sample day", written("unseal_file", &day)),
        (0, "no rows", written("unseal_file", &Plan::new(vec![]).file(&[]))),
        (8, "the tag of row 5 is wrong", written("unseal_file", &wrong(&day, 5))),
        (8, "the tags of rows 2 and 5 are wrong", written("unseal_file", &two)),
        (21, "a draft", written("unseal_file", &samples::draft())),
        (21, "a file of edition 2", written("unseal_file", &samples::stations())),
        (2, "2 before 6 and 8", with_lengths(&written("unseal_file", &two), 255, 1)),
        (6, "6 before 8", with_lengths(&written("unseal_file", &two), 256, 1)),
    ];
    cases.into_iter().map(|(status, what, case)| test(format!("unseal: {what}"), "draft", case, status)).collect()
}

/// Two rows of suites 4 and 3 with one key number and nonce, which would clash after resealing.
fn clashing() -> Vec<u8> {
    let nonce = [3; 16];
    let entries = vec![
        Entry::new(1, 1, 0, 1, nonce, b"one"),
        Entry::new(2, 4, 5, 1, nonce, b"two"),
        Entry::new(3, 3, 5, 1, nonce, b"three"),
    ];
    Plan::new(entries).file(&samples::ring())
}

fn reseals() -> Vec<Test> {
    let file = three_rows().without_stations().file(&samples::ring());
    let [other, own] = [0, 2].map(|row| {
        let at = rows(&file)[row].tag().start;
        patched(&file, at, &[!file[at]])
    });
    let clash = clashing();
    let cases = [
        (0, "row 2 of three has suite 4", written("reseal", &file)),
        (0, "no row of suite 4: a copy", written("reseal", &sealable().file(&samples::ring()))),
        (0, "a wrong tag under suite 3 is copied", written("reseal", &other)),
        (8, "a wrong tag under suite 4", written("reseal", &own)),
        (29, "two rows would clash: the later one", written("reseal", &clash)),
        (29, "29 before 2 and 6", with_lengths(&written("reseal", &clash), 255, 1)),
        (2, "2 before 6 and 8", with_lengths(&written("reseal", &own), 255, 1)),
        (6, "6 before 8", with_lengths(&written("reseal", &own), 256, 1)),
        (21, "a file of edition 2", written("reseal", &samples::stations())),
    ];
    cases.into_iter().map(|(status, what, case)| test(format!("reseal: {what}"), "reseal", case, status)).collect()
}

pub fn drafts() -> Vec<Test> {
    [seals(), unseals(), reseals()].into_iter().flatten().collect()
}

/// A move whose output is `more` bytes longer than the moved file.
fn moving(call: &str, file: &[u8], more: u64) -> Object {
    Object::call(call).bytes("file", file).number("out_len", moved_length(file) as u64 + more)
}

fn forward() -> Vec<Test> {
    let plan = three_rows().without_stations();
    let file = plan.file(&samples::ring());
    let mut broken = plan.clone();
    fault(&mut broken, 30, 1);
    let cases = [
        (0, "no rows", moving("to_edition2", &[1, 0, 0, 0, 8, 0, 0, 0], 0)),
        (0, "three rows", moving("to_edition2", &file, 0)),
        (0, "the sample day", moving("to_edition2", &samples::day(), 0)),
        (0, "to exactly 1,048,576 bytes", moving("to_edition2", &long_file(1, LONGEST - 64), 0)),
        (20, "to more than 1,048,576 bytes", moving("to_edition2", &long_file(1, LONGEST), 0)),
        (20, "20 of the moved file before 6", moving("to_edition2", &long_file(1, LONGEST - 63), 1)),
        (21, "a file of edition 2", moving("to_edition2", &samples::stations(), 0)),
        (30, "30 in row 1, before 6", moving("to_edition2", &broken.file(&samples::ring()), 1)),
        (6, "an output one byte too long", moving("to_edition2", &file, 1)),
    ];
    let forward = |(status, what, case): (u32, &str, Object)| {
        let rule = if status == 21 { rule_of(21) } else { "edition 2" };
        test(format!("to edition 2: {what}"), rule, case, status)
    };
    cases.into_iter().map(forward).collect()
}

fn back() -> Vec<Test> {
    let ring = samples::ring();
    let plain = three_rows().without_stations().in_edition(2).file(&ring);
    let stations = three_rows().in_edition(2).file(&ring);
    let last = patched(&plain, row_at(2, 2) + 7, &[1]);
    let key = patched(&plain, fields_at(2, 1) + 1, &[16]);
    let cases = [
        (0, "edition 2", "no rows", moving("to_edition1", &[2, 0, 0, 0, 8, 0, 0, 0], 0)),
        (0, "edition 2", "three rows", moving("to_edition1", &plain, 0)),
        (35, "status 35", "stations in rows 1 and 2", moving("to_edition1", &stations, 0)),
        (35, "status 35", "the highest byte of row 2's station", moving("to_edition1", &last, 0)),
        (35, "status 35", "35 before 6", moving("to_edition1", &stations, 1)),
        (26, "status 26", "26 before 6", moving("to_edition1", &key, 1)),
        (21, "status 21", "a file of edition 1", moving("to_edition1", &samples::day(), 0)),
        (6, "edition 2", "an output one byte too long", moving("to_edition1", &plain, 1)),
    ];
    cases
        .into_iter()
        .map(|(status, rule, what, case)| test(format!("to edition 1: {what}"), rule, case, status))
        .collect()
}

pub fn editions() -> Vec<Test> {
    [forward(), back()].into_iter().flatten().collect()
}

//! Cases on two files and on suppliers' files: amendments.json, comparisons.json and reports.json.

use super::files::patched;
use super::json::{Object, Value};
use super::{test, Test};
use crate::comet::fitting_tag;
use crate::data::files::{fault, many_rows_plan, three_rows};
use crate::data::samples;
use crate::difference::PROGRAM_LONGEST;
use crate::plan::{row_at, Entry, Plan};
use crate::shift::rows;

fn of_files(call: &str, amendment: &[u8], day: &[u8], job: u32) -> Object {
    Object::call(call).bytes("amendment", amendment).bytes("day", day).number("job", job)
}

fn opening(amendment: &[u8], day: &[u8], job: u32, out: usize) -> Object {
    of_files("open_amended", amendment, day, job).bytes("ring", &samples::ring()).number("out_len", out as u64)
}

/// The file `three_rows` with the fault of one status in a row.
fn faulty(status: u32, row: usize) -> Vec<u8> {
    let mut plan = three_rows();
    fault(&mut plan, status, row);
    plan.file(&samples::ring())
}

fn found() -> Vec<Test> {
    let (amendment, day, stations) = (samples::amendment(), samples::day(), samples::stations());
    let empty = Plan::new(vec![]).file(&[]);
    let (bad, broken) = (faulty(30, 1), faulty(26, 2));
    let cases = [
        (0, "both have the job: the amendment's", of_files("amended", &amendment, &day, 4102)),
        (0, "the amendment alone has it", of_files("amended", &amendment, &day, 4220)),
        (0, "the day's file alone has it", of_files("amended", &amendment, &day, 4103)),
        (32, "neither has it", of_files("amended", &amendment, &day, 4104)),
        (0, "the day's file is of edition 2", of_files("amended", &amendment, &stations, 4103)),
        (0, "the amendment is of edition 2", of_files("amended", &stations, &day, 4103)),
        (0, "an amendment of no rows", of_files("amended", &empty, &day, 4102)),
        (30, "the amendment is refused", of_files("amended", &bad, &day, 4102)),
        (
            26,
            "the day's file is refused, though the amendment has the job",
            of_files("amended", &amendment, &broken, 4102),
        ),
        (30, "both are refused: the amendment's status", of_files("amended", &bad, &broken, 4102)),
        (20, "an amendment of no bytes", of_files("amended", &[], &day, 4102)),
    ];
    cases.into_iter().map(|(status, what, case)| test(what, "amendment", case, status)).collect()
}

fn opened() -> Vec<Test> {
    let (amendment, day) = (samples::amendment(), samples::day());
    let own = rows(&amendment)[0];
    let old = rows(&day)[1];
    assert_eq!((own.job, old.job), (4102, 4102));
    let spoilt = |file: &[u8], at: usize| patched(file, at, &[!file[at]]);
    let [bad, bad_day] = [spoilt(&amendment, own.tag().start), spoilt(&day, old.tag().start)];
    let ring_of = |case: Object, len: usize| {
        let ring = crate::show::hex(&samples::ring()[..len]);
        case.changed("ring", Value::Text(ring))
    };
    let cases = [
        (0, "the amendment's message", opening(&amendment, &day, 4102, own.message)),
        (0, "the day's message", opening(&amendment, &day, 4103, rows(&day)[2].message)),
        (8, "the amendment's tag is wrong, the day's is right", opening(&bad, &day, 4102, own.message)),
        (0, "the day's tag is wrong, the amendment's is right", opening(&amendment, &bad_day, 4102, own.message)),
        (32, "neither has the job; before 2 and 6", ring_of(opening(&amendment, &day, 1, 3), 255)),
        (2, "2 before 6 and 8", ring_of(opening(&bad, &day, 4102, own.message + 1), 255)),
        (6, "6 before 8", opening(&bad, &day, 4102, own.message + 1)),
        (6, "the length of the day's message", opening(&amendment, &day, 4102, old.message)),
    ];
    cases.into_iter().map(|(status, what, case)| test(format!("open: {what}"), "amendment", case, status)).collect()
}

pub fn amendments() -> Vec<Test> {
    [found(), opened()].into_iter().flatten().collect()
}

fn comparing(first: &[u8], second: &[u8], lens: [u64; 3]) -> Object {
    let case = Object::call("compare").bytes("first", first).bytes("second", second);
    case.number("first_len", lens[0]).number("second_len", lens[1]).number("differ_len", lens[2])
}

/// The name of a change, and the change.
type Change = (&'static str, fn(&mut Plan));

/// `three_rows` compared with the same file after a change of one field of row 1.
fn fields() -> Vec<Test> {
    let ring = samples::ring();
    let plan = three_rows().resuited(4, 6);
    let changes: [Change; 6] = [
        ("suite", |plan| plan.entries[1].suite = 2),
        ("key number", |plan| plan.entries[1].key = 9),
        ("associated data length, the body's bytes equal", |plan| {
            let moved = plan.entries[1].message.remove(0);
            plan.entries[1].ad.push(moved);
        }),
        ("nonce", |plan| plan.entries[1].nonce[0] ^= 1),
        ("message", |plan| plan.entries[1].message[0] ^= 1),
        ("station", |plan| plan.entries[1].station ^= 1),
    ];
    let change = |(what, change): Change| {
        let mut other = plan.clone();
        change(&mut other);
        let [one, other] = [&plan, &other].map(|plan| plan.in_edition(2).file(&ring));
        test(format!("row 1 has another {what}"), "comparison", comparing(&one, &other, [512; 3]), 0)
    };
    changes.into_iter().map(change).collect()
}

fn compared() -> Vec<Test> {
    let ring = samples::ring();
    let (day, later, stations) = (samples::day(), samples::later_day(), samples::stations());
    let empty = Plan::new(vec![]).file(&[]);
    let (bad, broken) = (faulty(30, 1), faulty(26, 2));
    let plain = three_rows().without_stations();
    let [one, two] = [1, 2].map(|edition| plain.in_edition(edition).file(&ring));
    let cases = [
        (0, "a file and itself", comparing(&day, &day, [0; 3])),
        (0, "two files of no rows", comparing(&empty, &empty, [0; 3])),
        (0, "the day, and the day as it was sent later", comparing(&day, &later, [512; 3])),
        (0, "the other way", comparing(&later, &day, [512; 3])),
        (0, "lists that are just long enough", comparing(&day, &later, [1, 2, 2])),
        (36, "the first list one too short", comparing(&day, &later, [0, 2, 2])),
        (36, "the second list one too short", comparing(&day, &later, [1, 1, 2])),
        (36, "the third list one too short", comparing(&day, &later, [1, 2, 1])),
        (0, "editions 1 and 2, no stations: nothing differs", comparing(&one, &two, [0; 3])),
        (0, "editions 1 and 2: stations differ from 0", comparing(&day, &stations, [512; 3])),
        (30, "the first file is refused", comparing(&bad, &day, [512; 3])),
        (26, "the second file is refused, before 36", comparing(&day, &broken, [0; 3])),
        (30, "both are refused", comparing(&bad, &broken, [512; 3])),
    ];
    let rule = |status| if status == 36 { "status 36" } else { "comparison" };
    cases.into_iter().map(|(status, what, case)| test(what, rule(status), case, status)).collect()
}

pub fn comparisons() -> Vec<Test> {
    [compared(), fields()].into_iter().flatten().collect()
}

fn reporting(file: &[u8], ring: &[u8], lens: [u64; 2]) -> Object {
    let case = Object::call("report").bytes("file", file).bytes("ring", ring);
    case.number("jobs_len", lens[0]).number("numbers_len", lens[1])
}

/// The day with the other unit in some rows: it passes the check, and the tags of these rows are wrong.
fn exchanged(units: &[usize]) -> Vec<u8> {
    let mut day = samples::day();
    for row in units {
        let at = rows(&day)[*row].associated().start + 4;
        day[at] = 3 - day[at];
    }
    day
}

/// A file of this length that passes the check, with one row whose ciphertext is zeros.
fn long_row(len: usize) -> Vec<u8> {
    let (ring, entry) = (samples::ring(), Entry::new(1, 3, 0, 1, [0; 16], b""));
    let text = vec![0; len - row_at(1) - entry.ad.len() - 8];
    let tag = fitting_tag(3, &ring[..16], &[0; 15], &entry.ad, &text);
    let small = Plan::new(vec![entry.clone()]).file(&ring);
    let table = patched(&small[..row_at(1)], 4, &(len as u32).to_le_bytes());
    let table = patched(&table, 20, &(text.len() as u32).to_le_bytes());
    [table, entry.ad, text, tag].concat()
}

pub fn reports() -> Vec<Test> {
    let (ring, day) = (samples::ring(), samples::day());
    let full = [512; 2];
    let cases = [
        (0, "no rows", reporting(&[1, 0, 0, 0, 8, 0, 0, 0], &ring, [0; 2])),
        (0, "the sample day, every suite", reporting(&day, &ring, full)),
        (0, "the sample day in edition 2", reporting(&samples::stations(), &ring, full)),
        (0, "the unit of rows 0 and 6 is exchanged", reporting(&exchanged(&[0, 6]), &ring, full)),
        (0, "every unit is exchanged", reporting(&exchanged(&[0, 1, 2, 3, 4, 5, 6, 7]), &ring, full)),
        (0, "lists of one place for each row", reporting(&day, &ring, [8; 2])),
        (6, "the list of jobs one too short", reporting(&day, &ring, [7, 8])),
        (6, "the list of numbers one too short", reporting(&day, &ring, [8, 7])),
        (2, "2 before 6", reporting(&day, &ring[..255], [0; 2])),
        (30, "30 in row 1, before 2", reporting(&faulty(30, 1), &[], full)),
        (0, "a file of 65,280 bytes", reporting(&long_row(PROGRAM_LONGEST), &ring, full)),
        (20, "a file of 65,281 bytes, before 2", reporting(&long_row(PROGRAM_LONGEST + 1), &[], full)),
        (20, "7 bytes", reporting(&day[..7], &ring, full)),
    ];
    let mut tests: Vec<Test> =
        cases.into_iter().map(|(status, what, case)| test(what, "report", case, status)).collect();
    let many = many_rows_plan(40).file(&ring);
    tests.push(test("40 rows under sixteen keys", "report", reporting(&many, &ring, full), 0));
    let other = vec![0x22; 256];
    tests.push(test("another ring: every entry has 8", "report", reporting(&day, &other, full), 0));
    tests
}

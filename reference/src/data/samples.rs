//! The sample files (a day's file, an amendment, a ring), and the runs of `job` and `current` on them.

use super::Part;
use crate::plan::{Entry, Plan};
use crate::printed;
use crate::random::Random;
use crate::shift;

pub fn ring() -> Vec<u8> {
    Random::new(4).bytes(shift::RING)
}

/// The jobs of the day: job, suite, key number, unit and torque record.
const DAY: [(u32, u8, u8, u8, &str); 8] = [
    (
        4101,
        1,
        0,
        1,
        "gearbox 4101 bolt M10x60 count 12 torque 48.5 48.7 48.4 48.6 48.5 48.8 48.5 48.6 48.4 48.7 48.5 48.6",
    ),
    (4102, 2, 1, 1, "gearbox 4102 bolt M8x40 count 8 torque 24.9 25.1 25.0 25.2 24.8 25.0 25.1 24.9"),
    (4103, 3, 2, 2, "gearbox 4103 bolt 1/4-28 count 6 torque 106 108 107 107 106 109"),
    (4105, 4, 3, 2, "gearbox 4105 bolt 10-32 count 4 torque 31 32 31 31"),
    (4110, 3, 2, 1, ""),
    (4200, 1, 15, 1, "gearbox 4200 plug M22 count 1 torque 60.0, refitted after leak test"),
    (4210, 5, 4, 1, "gearbox 4210 bolt M12x80 count 6 torque 84.1 84.0 84.3 84.2 84.0 84.1"),
    (4211, 6, 5, 2, "gearbox 4211 bolt 5/16-24 count 3 torque 210 212 211"),
];

/// The stations of these jobs, in the file of edition 2.
const STATIONS: [u32; 8] = [207, 207, 207, 208, 0, 311, 207, 208];

/// The associated data after the unit, in the jobs of a station that adds its name.
const STATION: &[u8] = b"line 2 station 7";

/// The jobs of the amendment, as job, suite and record: it replaces 4102 and 4110 and adds one.
const AMENDMENT: [(u32, u8, &str); 3] = [
    (4102, 2, "gearbox 4102 bolt M8x40 count 8 torque 25.0 25.1 25.0 25.2 25.0 25.0 25.1 25.0, bolts 1 5 8 retorqued"),
    (4110, 3, "gearbox 4110 bolt M6x20 count 2 torque 9.8 9.9, entered by hand"),
    (4220, 5, "gearbox 4220 plug M22 count 1 torque 60.2"),
];

/// The job that the program `job` opens.
const OPENED: u32 = 4103;

/// The job that the program `current` opens; the day has it too.
const AMENDED: u32 = 4102;

fn entries() -> Vec<Entry> {
    let mut random = Random::new(5);
    let entry = |(job, suite, key, unit, record): (u32, u8, u8, u8, &str)| {
        let mut entry = Entry::new(job, suite, key, unit, random.array(), record.as_bytes());
        if job != 4110 {
            entry.ad.extend(STATION);
        }
        entry
    };
    let mut entries: Vec<Entry> = DAY.into_iter().map(entry).collect();
    entries.iter_mut().zip(STATIONS).for_each(|(entry, station)| entry.station = station);
    entries
}

pub fn day() -> Vec<u8> {
    Plan::new(entries()).file(&ring())
}

/// The same day in edition 2, with its stations.
pub fn stations() -> Vec<u8> {
    Plan::new(entries()).in_edition(2).file(&ring())
}

/// A later version of the day: without job 4105, with 4111 and 4300, with another record of 4102 and another key of 4200.
pub fn later_day() -> Vec<u8> {
    let mut entries = entries();
    entries[1].message.extend(b" retorqued");
    entries[5].key = 14;
    let [mut inserted, mut last] = [entries[4].clone(), entries[0].clone()];
    (inserted.job, last.job) = (4111, 4300);
    for entry in [&mut inserted, &mut last] {
        entry.nonce[0] ^= 0x55;
        entry.ad[..4].copy_from_slice(&entry.job.to_le_bytes());
    }
    entries.push(last);
    entries.insert(5, inserted);
    entries.remove(3);
    Plan::new(entries).file(&ring())
}

pub fn amendment() -> Vec<u8> {
    let mut random = Random::new(16);
    let entry = |(job, suite, record): (u32, u8, &str)| {
        let mut entry = Entry::new(job, suite, 7, 1, random.array(), record.as_bytes());
        entry.ad.extend(b"quality");
        entry
    };
    Plan::new(AMENDMENT.into_iter().map(entry).collect()).file(&ring())
}

/// The draft of the day, without the job of suite 4.
pub fn draft() -> Vec<u8> {
    Plan::new(entries().into_iter().filter(|entry| entry.suite != 4).collect()).draft()
}

pub fn parts() -> [Part; 5] {
    [
        ("day.shift", day()),
        ("stations.shift", stations()),
        ("amendment.shift", amendment()),
        ("day.draft", draft()),
        ("ring.keys", ring()),
    ]
}

/// The files of the program `job`.
pub fn job_parts() -> [Part; 4] {
    let message = DAY.iter().find(|entry| entry.0 == OPENED).unwrap().4;
    let stdout = printed::job(&day(), &ring(), OPENED);
    assert!(stdout.starts_with("0 0\nunit 2 inch-pounds\n") && stdout.ends_with(&format!("message text {message}\n")));
    [
        ("args", format!("day.shift\nring.keys\n{OPENED}\n").into_bytes()),
        ("data/day.shift", day()),
        ("data/ring.keys", ring()),
        ("stdout", stdout.into_bytes()),
    ]
}

/// The files of the program `current`.
pub fn current_parts() -> [Part; 5] {
    let message = AMENDMENT.iter().find(|entry| entry.0 == AMENDED).unwrap().2;
    let stdout = printed::current(&amendment(), &day(), &ring(), AMENDED);
    assert!(stdout.starts_with("0 1 ") && stdout.ends_with(&format!("message text {message}\n")));
    [
        ("args", format!("amendment.shift\nday.shift\nring.keys\n{AMENDED}\n").into_bytes()),
        ("data/amendment.shift", amendment()),
        ("data/day.shift", day()),
        ("data/ring.keys", ring()),
        ("stdout", stdout.into_bytes()),
    ]
}

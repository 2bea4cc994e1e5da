//! Random and edge inputs for the comparison with the proved library.

use crate::calls::{Call, FileCall, FILLER};
use crate::comet::{block_size, is_retired, LIMIT, SUITES};
use crate::data::{cases, files, samples};
use crate::random::Random;
use crate::shift::{self, fields_at, row_at, EDITIONS};

/// Each pair of lengths from 0 to 3 blocks + 1 under each suite: sealed, opened, and opened with one bit inverted.
pub fn lengths(random: &mut Random, mut each: impl FnMut(&Call)) {
    for suite in SUITES {
        let all = 3 * block_size(suite) + 2;
        for (ad, message) in (0..all * all).map(|i| (i / all, i % all)) {
            let sealing = cases::sealing(random, suite, ad, message);
            let opening = sealing.reopened();
            each(&sealing);
            each(&opening);
            each(&damaged(random, opening));
        }
    }
}

/// The call with one random bit of its inputs inverted.
fn damaged(random: &mut Random, mut call: Call) -> Call {
    let parts = [&mut call.key, &mut call.nonce, &mut call.ad, &mut call.text, &mut call.tag];
    let mut bytes: Vec<&mut u8> = parts.into_iter().flatten().collect();
    let index = random.below(bytes.len());
    *bytes[index] ^= 1 << random.below(8);
    call
}

/// The fault of each status alone and in all pairs, in all kinds, for the sealer and the opener of each suite.
pub fn faults(random: &mut Random, mut each: impl FnMut(&Call)) {
    for (suite, opens) in SUITES.into_iter().flat_map(|suite| [(suite, false), (suite, true)]) {
        let statuses = if opens { [1, 2, 3, 4, 5, 6, 7, 8] } else { [1, 10, 2, 3, 4, 5, 6, 7] };
        let pairs = (0..8).flat_map(|first| (first..8).map(move |second| (statuses[first], statuses[second])));
        for (first, second) in pairs {
            for kind in 0..5 {
                let message = 1 + random.below(40);
                let sealing = cases::sealing(random, suite, 5, message);
                let mut call = if opens { sealing.reopened() } else { sealing };
                cases::fault(&mut call, second, kind);
                if first != second {
                    cases::fault(&mut call, first, kind + 1);
                }
                each(&call);
            }
        }
    }
}

/// Lengths around the limit of associated data and message: sealed, opened, and opened with one bit inverted.
pub fn limits(random: &mut Random, mut each: impl FnMut(&Call)) {
    let around = [LIMIT - 1, LIMIT, LIMIT + 1];
    for suite in SUITES {
        for (ad, message) in around.iter().flat_map(|long| [(*long, 9), (5, *long), (*long, *long)]) {
            let sealing = cases::sealing(random, suite, ad, message);
            each(&sealing);
            if ad <= LIMIT && message <= LIMIT {
                let opening = sealing.reopened();
                each(&opening);
                each(&damaged(random, opening));
            } else {
                each(&Call { opens: true, ..sealing });
            }
        }
    }
}

/// A random length: mostly short, often at a block boundary, seldom long.
fn length(random: &mut Random) -> usize {
    match random.below(20) {
        0 => random.below(5_000),
        1 => 1_024,
        2..=6 => (8 * random.below(20) + random.below(3)).max(1) - 1,
        _ => random.below(70),
    }
}

/// Records of random lengths: half are opened, and half of those are damaged; one in eight has one or two faults.
pub fn records(random: &mut Random, count: usize, mut each: impl FnMut(&Call)) {
    for _ in 0..count {
        let suite = SUITES[random.below(SUITES.len())];
        let (ad, message) = (length(random), length(random));
        let mut call = cases::sealing(random, suite, ad, message);
        if random.below(2) == 0 || is_retired(suite) {
            call = call.reopened();
            if random.below(2) == 0 {
                call = damaged(random, call);
            }
        }
        for _ in 0..[0, 0, 0, 0, 0, 0, 0, 1 + random.below(2)][random.below(8)] {
            let (status, kind) = ([7, 6, 3, 2, 1][random.below(5)], random.below(7));
            cases::fault(&mut call, status, kind);
        }
        each(&call);
    }
}

/// Every single-byte change of the files of `damaged_calls`.
pub fn single_bytes(mut each: impl FnMut(&FileCall)) {
    for call in files::damaged_calls() {
        let mut damaged = call.clone();
        for at in 0..call.file.len() {
            for x in 1..=255 {
                damaged.file[at] = call.file[at] ^ x;
                each(&damaged);
            }
            damaged.file[at] = call.file[at];
        }
    }
}

/// Good files with up to three edits each, a job that the file may have, and sometimes a wrong ring or output.
pub fn shift_files(random: &mut Random, count: usize, mut each: impl FnMut(&FileCall)) {
    for _ in 0..count {
        let (rows, longest) = (random.below(9), [0, 20, 100][random.below(3)]);
        let plan = files::random_plan(random, rows, longest).in_edition(1 + random.below(2));
        let mut call = FileCall { file: plan.file(&samples::ring()), ring: samples::ring(), job: 5, out: 0 };
        if rows > 0 {
            let entry = &plan.entries[random.below(rows)];
            (call.job, call.out) = (entry.job, entry.message.len());
        }
        for _ in 0..random.below(4) {
            edit(random, &mut call.file, rows);
        }
        misuse(random, &mut call);
        each(&call);
    }
}

/// Gives one call in eight another job, ring or output length.
fn misuse(random: &mut Random, call: &mut FileCall) {
    if random.below(24) == 0 {
        call.job = call.job.wrapping_add(random.below(3) as u32).wrapping_sub(1);
    }
    misuse_ring(random, &mut call.ring, &mut call.out);
}

/// Gives one call in twelve another ring or output length.
pub fn misuse_ring(random: &mut Random, ring: &mut Vec<u8>, out: &mut usize) {
    match random.below(24) {
        0 => ring.resize([0, 255, 257, 16][random.below(4)], FILLER),
        1 => *out = [*out + 1, (*out).max(1) - 1, 0, 300][random.below(4)],
        _ => {}
    }
}

/// Edits a file once: its header, a row, any byte, or its length.
pub fn edit(random: &mut Random, file: &mut Vec<u8>, rows: usize) {
    match random.below(8) {
        0 => edit_header(random, file),
        1 | 2 if !file.is_empty() => {
            let at = random.below(file.len());
            file[at] ^= 1 << random.below(8);
        }
        3 => {
            let length = (file.len() + random.below(40)).max(20) - 20;
            file.resize(length, 0);
            if random.below(4) > 0 {
                put(file, 4, &(length as u32).to_le_bytes());
            }
        }
        _ if rows > 0 => edit_row(random, file, rows),
        _ => {}
    }
}

/// Overwrites bytes of the file, if it is long enough.
fn put(file: &mut [u8], at: usize, bytes: &[u8]) {
    if at + bytes.len() <= file.len() {
        file[at..at + bytes.len()].copy_from_slice(bytes);
    }
}

fn edit_header(random: &mut Random, file: &mut [u8]) {
    let number = [0, 1, 2, 3, 4, 512, 513, 0xffff][random.below(8)] as u16;
    let at = 2 * random.below(4);
    put(file, at, &number.to_le_bytes());
}

/// The 32-bit integer at an offset; 0 if the file ends before it.
fn u32_at(file: &[u8], at: usize) -> u32 {
    file.get(at..at + 4).map_or(0, |bytes| u32::from_le_bytes(bytes.try_into().unwrap()))
}

/// A number near the one at an offset, or one of `edges`, the limits that the check has for it.
fn near(random: &mut Random, file: &[u8], at: usize, edges: &[u32]) -> [u8; 4] {
    let old = u32_at(file, at);
    let step = random.below(5) as u32;
    let edge = edges[random.below(edges.len())];
    if random.below(2) == 0 { old.wrapping_add(step).wrapping_sub(2) } else { edge }.to_le_bytes()
}

/// Edits a field of a row, or the job number or unit at the start of its body.
fn edit_row(random: &mut Random, file: &mut [u8], rows: usize) {
    let edition = if file.starts_with(&[2, 0]) { 2 } else { 1 };
    let (i, j) = (random.below(rows), random.below(rows));
    let (row, other) = (row_at(edition, i), row_at(edition, j));
    let (fields, other_fields) = (fields_at(edition, i), fields_at(edition, j));
    let nonce = |file: &[u8]| file.get(other_fields + 12..other_fields + 28).unwrap_or_default().to_vec();
    let (at, bytes) = match random.below(11) {
        0 => (row, near(random, file, other, &[0, u32::MAX]).to_vec()),
        1 => (fields, vec![random.below(9) as u8]),
        2 => (fields + 1, vec![13 + random.below(5) as u8]),
        3 => (fields + 2, near(random, file, fields + 2, &[0, 4, 5, 1024, 1025])[..2].to_vec()),
        4 => (fields + 4, near(random, file, fields + 4, &[0, 8, 40, u32::MAX]).to_vec()),
        5 => (fields + 8, near(random, file, fields + 8, &[0, 65_536, 65_537, u32::MAX]).to_vec()),
        6 => (fields + 12, nonce(file)),
        7 => {
            let bytes = nonce(file);
            put(file, fields + 12, &bytes);
            (fields, file.get(other_fields..other_fields + 2).unwrap_or_default().to_vec())
        }
        8 => (fields + 27, vec![random.below(3) as u8]),
        // the station, which only edition 2 has
        9 => (row + 4, near(random, file, row + 4, &[0, 1, u32::MAX])[..fields - row - 4].to_vec()),
        _ => (u32_at(file, fields + 4) as usize + random.below(5), vec![random.below(4) as u8]),
    };
    put(file, at, &bytes);
}

/// Long files: tables of 512 and of 513 rows with edits, and files around the greatest length.
pub fn long_files(random: &mut Random, mut each: impl FnMut(&FileCall)) {
    for (rows, edition) in [(512, 1), (513, 1), (512, 2), (513, 2)] {
        let good = files::many_rows_plan(rows).in_edition(edition).file(&samples::ring());
        for trial in 0..40 {
            let mut file = good.clone();
            if trial > 0 {
                edit_row(random, &mut file, rows);
            }
            let job = 10 * random.below(rows) as u32;
            each(&FileCall { file, ring: samples::ring(), job, out: 0 });
        }
    }
    for edition in EDITIONS {
        let longest = files::long_file(edition, shift::LONGEST);
        for length in [shift::LONGEST - 1, shift::LONGEST, shift::LONGEST + 1] {
            for job in 0..=17 {
                let mut file = longest.clone();
                file.resize(length, 0);
                put(&mut file, 4, &(length as u32).to_le_bytes());
                each(&FileCall { file, ring: samples::ring(), job, out: LIMIT });
            }
        }
    }
}

//! Cases for `test_shift`: jobs found by binary search.

use super::{files, samples};
use crate::calls::{head, Case, Library, REFERENCE};
use crate::random::Random;
use crate::shift::{self, row_at, Answer};
use crate::trials::edit;

/// Searches a file for `count` consecutive job numbers from `first` on.
#[derive(Clone)]
pub struct SearchCall {
    pub first: u32,
    pub count: u32,
    pub file: Vec<u8>,
}

impl Case for SearchCall {
    type Outcome = Vec<(Answer, u32)>;

    fn answer(&self, by: &Library) -> Vec<(Answer, u32)> {
        (0..self.count).map(|i| (by.search)(&self.file, self.first + i)).collect()
    }

    fn record(&self) -> Vec<u8> {
        let head = head(2, 0, self.first, &[self.file.len(), self.count as usize]);
        [&head[..], &self.file].concat()
    }

    fn lines(&self, by: &Library) -> String {
        let line = |((status, row), looked): (Answer, u32)| format!("{status} {row} {looked}\n");
        self.answer(by).into_iter().map(line).collect()
    }
}

/// A file of a header and a table with these jobs. It passes 20 to 24, and the search checks nothing else.
fn table(jobs: &[u32]) -> Vec<u8> {
    table_in(1, jobs)
}

fn table_in(edition: usize, jobs: &[u32]) -> Vec<u8> {
    let length = row_at(edition, jobs.len());
    let header = [&[edition as u8, 0][..], &(jobs.len() as u16).to_le_bytes(), &(length as u32).to_le_bytes()];
    let mut file = header.concat();
    file.resize(length, 0);
    for (i, job) in jobs.iter().enumerate() {
        file[row_at(edition, i)..][..4].copy_from_slice(&job.to_le_bytes());
    }
    file
}

/// The first `count` odd numbers.
fn odd(count: u32) -> Vec<u32> {
    (0..count).map(|i| 2 * i + 1).collect()
}

fn call(first: u32, count: u32, file: Vec<u8>) -> SearchCall {
    SearchCall { first, count, file }
}

/// Every job and its neighbours in tables of these sizes.
fn sizes(_: &mut Random) -> Vec<SearchCall> {
    let sizes = (0..=10).chain([15, 16, 17, 63, 64, 511, 512]);
    let wide = [0, 1, 2, 3, 16, 100, 512].map(|count| call(0, 2 * count + 2, table_in(2, &odd(count))));
    sizes.map(|count| call(0, 2 * count + 2, table(&odd(count)))).chain(wide).collect()
}

/// The smallest and the largest job numbers, and those around 2^31.
fn edges(_: &mut Random) -> Vec<SearchCall> {
    let file = table(&[0, 1, 0x7fff_ffff, 0x8000_0000, 0xffff_fffe, 0xffff_ffff]);
    [(0, 4), (0x7fff_fffd, 6), (0xffff_fffc, 3), (0xffff_ffff, 1)]
        .map(|(first, count)| call(first, count, file.clone()))
        .to_vec()
}

/// Tables that are not sorted: descending, with repeated jobs, with random jobs.
fn unsorted(random: &mut Random) -> Vec<SearchCall> {
    let mut tables: Vec<Vec<u32>> = vec![(0..20).rev().collect(), vec![5; 12], [odd(6), odd(6)].concat()];
    for count in [3, 10, 50] {
        tables.push((0..count).map(|_| random.below(30) as u32).collect());
    }
    tables.iter().map(|jobs| call(0, 40, table(jobs))).collect()
}

/// 20 to 24, each alone and together with all later ones; a refused search reads no row.
fn refused(_: &mut Random) -> Vec<SearchCall> {
    let mut calls = refused_of(table(&odd(5)));
    calls.extend(refused_of(table_in(2, &odd(5))));
    // a table whose rows are too short for its edition
    let mut narrow = table(&odd(9));
    narrow[0] = 2;
    calls.push(call(5, 1, narrow));
    calls
}

fn refused_of(good: Vec<u8>) -> Vec<SearchCall> {
    let mut calls: Vec<SearchCall> = (0..=8).map(|length| call(5, 1, good[..length].to_vec())).collect();
    let faults: [(u32, usize, &[u8]); 4] =
        [(21, 0, &[3, 0]), (22, 2, &[1, 2]), (23, 4, &[7, 0, 0, 0]), (24, 2, &[6, 0])];
    for (i, (status, _, _)) in faults.iter().enumerate() {
        for others in [&faults[i..i + 1], &faults[i..]] {
            let mut file = good.clone();
            for (_, at, bytes) in others.iter().rev() {
                file[*at..*at + bytes.len()].copy_from_slice(bytes);
            }
            let call = call(5, 1, file);
            assert_eq!(call.answer(&REFERENCE), [((*status, 0), 0)]);
            calls.push(call);
        }
    }
    calls
}

/// Good files, on which the search returns what the lookup returns; and the same files with faulty bodies and rows.
fn whole_files(random: &mut Random) -> Vec<SearchCall> {
    let mut calls = vec![];
    for (edition, rows) in [(1, 1), (1, 3), (1, 6), (2, 2), (2, 5)] {
        let mut good = call(0, 0, files::random_plan(random, rows, 20).in_edition(edition).file(&samples::ring()));
        for row in shift::rows(&good.file) {
            let near = SearchCall { first: row.job.max(1) - 1, count: 3, ..good.clone() };
            let lookups: Vec<Answer> = (0..3).map(|i| shift::lookup(&near.file, near.first + i)).collect();
            assert_eq!(near.answer(&REFERENCE).iter().map(|answer| answer.0).collect::<Vec<_>>(), lookups);
            calls.push(near);
        }
        let job = shift::rows(&good.file)[rows / 2].job;
        good.file[row_at(edition, rows)..].fill(0xee);
        good.file[row_at(edition, 0) + 4..row_at(edition, 1)].fill(0xee);
        calls.push(SearchCall { first: job, count: 2, ..good });
    }
    calls
}

/// All calls of the test data.
pub fn calls() -> Vec<SearchCall> {
    let mut random = Random::new(10);
    let groups = [sizes, edges, unsorted, refused, whole_files];
    groups.into_iter().flat_map(|group| group(&mut random)).collect()
}

/// Random files, good and edited, and random tables; for each every job that it has and the adjacent numbers.
pub fn trials(random: &mut Random, count: usize, mut each: impl FnMut(&SearchCall)) {
    for trial in 0..count {
        let (rows, edition) = (random.below(12), 1 + random.below(2));
        let mut file = files::random_plan(random, rows, 10).in_edition(edition).file(&samples::ring());
        if trial % 2 == 0 {
            let most = 1 + random.below(40);
            let jobs: Vec<u32> = (0..random.below(40)).map(|_| random.below(most) as u32).collect();
            file = table_in(edition, &jobs);
        }
        for _ in 0..random.below(3) {
            edit(random, &mut file, rows);
        }
        let first = [0, random.below(3000) as u32][random.below(2)];
        each(&call(first, 30, file.clone()));
        if rows > 0 && file.len() >= row_at(edition, rows) {
            let near = row_at(edition, random.below(rows));
            let job = u32::from_le_bytes(file[near..near + 4].try_into().unwrap());
            each(&call(job.max(1) - 1, if job < u32::MAX { 3 } else { 1 }, file));
        }
    }
}

/// Around the greatest length: the longest file is searched, one byte more is 20.
pub fn longest(mut each: impl FnMut(&SearchCall)) {
    for edition in shift::EDITIONS {
        let longest = files::long_file(edition, shift::LONGEST);
        each(&call(0, 20, longest.clone()));
        let mut longer = longest;
        longer.push(0);
        longer[4..8].copy_from_slice(&(shift::LONGEST as u32 + 1).to_le_bytes());
        each(&call(0, 3, longer));
    }
}

//! Benchmark: throughput of the proved library as a ratio to the reference implementation and to the plain C, on the same
//! buffers in one run. A ratio above 1 means that the proved library is faster.
//!
//! ```text
//! bench [REPETITIONS]
//! ```

use reference::calls::{Call, Library, REFERENCE};
use reference::comet::{is_retired, SEALED, SUITES};
use reference::data::{cases, samples};
use reference::linked::{COLUMNS, PLAIN, PROVED};
use reference::plan::{Entry, Plan};
use reference::random::Random;
use reference::shift;
use std::hint::black_box;
use std::time::{Duration, Instant};

const SIZES: [usize; 4] = [0, 64, 1_024, 65_536];
const BATCH: Duration = Duration::from_micros(300);
/// The proved library, the reference implementation and the plain C; `BY_TABLES` is for suites 1 and 5 and has AES by four
/// tables.
const LIBRARIES: [Library; 3] = [PROVED, REFERENCE, PLAIN];
const BY_TABLES: [Library; 3] = [PROVED, REFERENCE, COLUMNS];

/// Nanoseconds of one run, as the mean over `count` of them.
fn time(count: usize, run: &mut dyn FnMut()) -> f64 {
    let start = Instant::now();
    (0..count).for_each(|_| run());
    start.elapsed().as_nanos() as f64 / count as f64
}

fn median(mut values: Vec<f64>) -> f64 {
    values.sort_by(f64::total_cmp);
    values[values.len() / 2]
}

/// Nanoseconds of the proved library, and its throughput as a ratio to that of each of the others.
#[derive(Clone, Copy)]
struct Measured {
    ours: f64,
    to_reference: f64,
    to_plain: f64,
}

impl Measured {
    /// The ratio to the faster of the two, rounded as it is printed.
    fn ratio(&self) -> f64 {
        (100.0 * self.to_reference.min(self.to_plain)).round() / 100.0
    }
}

/// Medians over repetitions in which the three libraries alternate; each goes first equally often.
fn measure(repetitions: usize, run: &mut dyn FnMut(usize)) -> Measured {
    let once = time(3, &mut || run(2)).max(1.0);
    let count = (BATCH.as_nanos() as f64 / once).ceil() as usize;
    let mut times: [Vec<f64>; 3] = Default::default();
    for repetition in 0..repetitions + 3 {
        for which in (0..3).map(|i| (i + repetition) % 3) {
            let nanoseconds = time(count, &mut || run(which));
            if repetition >= 3 {
                times[which].push(nanoseconds);
            }
        }
    }
    let ratio = |other: usize| median(times[other].iter().zip(&times[0]).map(|(other, ours)| other / ours).collect());
    Measured { to_reference: ratio(1), to_plain: ratio(2), ours: median(times[0].clone()) }
}

/// Measures sealing or opening one record with the shift file's shortest associated data.
fn measure_record(repetitions: usize, call: &Call, libraries: &[Library; 3]) -> Measured {
    let (mut out, mut tag) = (vec![0; call.out], call.tag.clone());
    let Call { suite, key, nonce, ad, text, .. } = call;
    measure(repetitions, &mut |which| {
        let by = &libraries[which];
        let status = if call.opens {
            (by.open)(*suite, key, nonce, ad, black_box(text), &call.tag, &mut out)
        } else {
            (by.seal)(*suite, key, nonce, ad, black_box(text), &mut out, &mut tag)
        };
        assert_eq!(status, 0);
        black_box((&out, &tag));
    })
}

/// The proved library's time per byte in the longer call divided by that in the shorter one: the median over repetitions in
/// which the two alternate, so that both run under the same load.
fn growth(repetitions: usize, shorter: &Call, longer: &Call) -> f64 {
    let (mut out, mut tag) = (vec![0; longer.out], longer.tag.clone());
    let mut once = |call: &Call| {
        let Call { suite, key, nonce, ad, text, .. } = call;
        let out = &mut out[..call.out];
        let status = if call.opens {
            (PROVED.open)(*suite, key, nonce, ad, black_box(text), &call.tag, out)
        } else {
            (PROVED.seal)(*suite, key, nonce, ad, black_box(text), out, &mut tag)
        };
        assert_eq!(status, 0);
    };
    let fold = longer.text.len() / shorter.text.len();
    let ratios = (0..repetitions).map(|_| {
        let short = time(fold, &mut || once(shorter));
        time(1, &mut || once(longer)) / (fold as f64 * short)
    });
    median(ratios.collect())
}

/// A plan of messages of one size under one suite, as many as fit into a file.
fn plan(random: &mut Random, suite: u8, size: usize) -> Plan {
    let rows = ((shift::LONGEST - shift::HEADER) / (shift::row_size(1) + 5 + size + 16)).min(shift::MOST_ROWS);
    let entry = |job| Entry::new(job as u32, suite, 0, 1, random.array(), &vec![0; size]);
    Plan::new((0..rows).map(entry).collect())
}

/// Throughput of the writer on a draft divided by that of the sealer on its bodies alone, measured alternately.
fn writer_ratio(repetitions: usize, draft: &[u8]) -> f64 {
    let (ring, mut out) = (samples::ring(), draft.to_vec());
    let rows = shift::rows(draft);
    let ratios = (0..repetitions).map(|_| {
        let writer = time(1, &mut || assert_eq!((PROVED.seal_file)(black_box(draft), &ring, &mut out), (0, 0)));
        let bodies = time(1, &mut || {
            for row in &rows {
                let (text, tag) = out[row.text().start..row.tag().end].split_at_mut(row.message);
                let [ad, message] = [row.associated(), row.text()].map(|range| &black_box(draft)[range]);
                assert_eq!((PROVED.seal)(row.suite, row.key(&ring), row.nonce(), ad, message, text, tag), 0);
            }
        });
        bodies / writer
    });
    median(ratios.collect())
}

fn measure_check(repetitions: usize, file: &[u8]) -> Measured {
    measure(repetitions, &mut |which| assert_eq!((LIBRARIES[which].check)(black_box(file)).0, 0))
}

/// Seals a record by a session, with the message in parts of one length.
fn seal_in_parts(call: &Call, length: usize, out: &mut [u8], tag: &mut [u8]) {
    let step = (PROVED.session_start)(call.suite, &call.key, &call.nonce);
    let mut step = (PROVED.session_data)(step.next, &call.ad);
    let mut at = 0;
    for part in black_box(&call.text).chunks(length) {
        step = (PROVED.session_part)(step.next, part, &mut out[at..]);
        at += step.count;
    }
    assert_eq!((PROVED.session_end)(step.next, &mut out[at..], tag).number, 0);
}

/// Throughput of a session with parts of one length divided by that of the one-call sealer, measured alternately.
fn session_ratio(repetitions: usize, call: &Call, length: usize) -> f64 {
    let (mut out, mut tag) = (vec![0; call.out + 32], call.tag.clone());
    let ratios = (0..repetitions).map(|_| {
        let parts = time(1, &mut || seal_in_parts(call, length, &mut out, &mut tag));
        let Call { suite, key, nonce, ad, text, .. } = call;
        let whole = &mut out[..call.out];
        let one =
            time(1, &mut || assert_eq!((PROVED.seal)(*suite, key, nonce, ad, black_box(text), whole, &mut tag), 0));
        one / parts
    });
    median(ratios.collect())
}

/// Nanoseconds of the search and of the full lookup for the last job of a file of 512 rows, measured alternately.
fn search_times(repetitions: usize, file: &[u8]) -> [f64; 2] {
    let job = shift::rows(file).last().unwrap().job;
    let times = (0..repetitions).map(|_| {
        let search = time(100, &mut || assert_eq!((PROVED.search)(black_box(file), job).0, (0, 511)));
        [search, time(1, &mut || assert_eq!((PROVED.lookup)(black_box(file), job), (0, 511)))]
    });
    let times: Vec<[f64; 2]> = times.collect();
    [0, 1].map(|which| median(times.iter().map(|pair| pair[which]).collect()))
}

fn line(suite: u8, what: &str, size: usize, m: Measured) {
    let has_bytes = size > 0 && !what.starts_with("check");
    let per_byte = if has_bytes { format!("{:.3}", m.ours / size as f64) } else { "-".to_string() };
    println!("| {suite} | {what} | {size} | {:.0} | {per_byte} | {:.2} | {:.2} |", m.ours, m.to_reference, m.to_plain);
}

/// A message for each target of sealing or opening that is missed.
fn misses(suite: u8, what: &str, measured: &[Measured; 4], targets: &[(usize, f64)]) -> Vec<String> {
    let missed = targets.iter().filter(|(i, target)| measured[*i].ratio() < *target);
    let miss = |(i, target): &(usize, f64)| {
        format!("suite {suite}, {what} {} bytes: {:.2}, not {target}", SIZES[*i], measured[*i].ratio())
    };
    missed.map(miss).collect()
}

/// Measures sealing or opening at each size and prints a line for each; returns the missed targets.
fn measure_sizes(
    repetitions: usize,
    what: &str,
    calls: &[Call; 4],
    by: &[Library; 3],
    targets: &[(usize, f64)],
) -> Vec<String> {
    let suite = calls[0].suite;
    let measured = calls.each_ref().map(|call| measure_record(repetitions, call, by));
    (0..4).for_each(|i| line(suite, what, SIZES[i], measured[i]));
    misses(suite, what, &measured, targets)
}

fn main() {
    if !cfg!(native) {
        eprintln!("bench: no archive of this processor is linked, and a time under emulation means nothing");
        std::process::exit(1);
    }
    let repetitions = std::env::args().nth(1).map_or(101, |count| count.parse().expect("REPETITIONS is a status"));
    let mut random = Random::new(1);
    let (mut missed, mut growths) = (vec![], vec![]);
    println!("| suite | what | message bytes | ours, ns | ns a byte | ours / reference | ours / plain C |");
    println!("|---|---|---|---|---|---|---|");
    for suite in SUITES {
        let calls = SIZES.map(|size| cases::sealing(&mut random, suite, 5, size));
        let both = [("seal", calls.clone()), ("open", calls.map(|call| call.reopened()))];
        for (what, calls) in both.into_iter().skip(is_retired(suite) as usize) {
            missed.extend(measure_sizes(repetitions, what, &calls, &LIBRARIES, &[(1, 0.9), (2, 1.0), (3, 1.0)]));
            if [1, 5].contains(&suite) {
                let what = format!("{what}, C by tables");
                missed.extend(measure_sizes(repetitions, &what, &calls, &BY_TABLES, &[(2, 1.0), (3, 1.0)]));
            }
            let growth = growth(repetitions, &calls[2], &calls[3]);
            growths.push(format!("suite {suite}, {what}: {growth:.2}"));
            if growth > 1.1 {
                missed
                    .push(format!("suite {suite}, {what}: a byte costs {growth:.2} times as much at 65536 as at 1024"));
            }
        }
        for size in SIZES {
            let plan = plan(&mut random, suite, size);
            let (rows, file) = (plan.entries.len(), plan.file(&samples::ring()));
            line(suite, &format!("check, {rows} rows"), size, measure_check(repetitions, &file));
        }
    }
    println!("\nA byte at 65536 over a byte at 1024: {}", growths.join("; "));
    println!("\nA session over the one-call sealer, 65536 bytes in parts of 64, 1024 and 4099:");
    for suite in SEALED {
        let call = cases::sealing(&mut random, suite, 5, 65_536);
        let ratios = [64, 1_024, 4_099].map(|length| session_ratio(repetitions, &call, length));
        println!("suite {suite}: {:.2} {:.2} {:.2}", ratios[0], ratios[1], ratios[2]);
        if ratios[1] < 0.9 {
            missed.push(format!("suite {suite}, a session in parts of 1024 bytes: {:.2}, not 0.9", ratios[1]));
        }
    }
    println!("\nThe writer over the sealer on the bodies alone, messages of 1024 and of 65536 bytes:");
    for suite in SEALED {
        let ratios = [1_024, 65_536].map(|size| writer_ratio(repetitions, &plan(&mut random, suite, size).draft()));
        println!("suite {suite}: {:.2} {:.2}", ratios[0], ratios[1]);
        if ratios[0].min(ratios[1]) < 0.9 {
            missed.push(format!("suite {suite}, the writer: {:.2} and {:.2}, not 0.9", ratios[0], ratios[1]));
        }
    }
    let [search, lookup] = search_times(repetitions, &plan(&mut random, 3, 0).file(&samples::ring()));
    println!("\nA job among 512 rows: {search:.0} ns by the search, {lookup:.0} ns by the full lookup");
    println!("\n{} targets missed", missed.len());
    missed.iter().for_each(|miss| println!("- {miss}"));
}

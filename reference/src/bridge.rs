//! The proved library for x86-64, called through the C program bridge/bridge.c, which is linked with its archive.
//!
//! On another processor a cross compiler compiles that program for x86-64. It runs under a `qemu-x86_64` on the path.

use crate::amendment::Amended;
use crate::calls::Library;
use crate::contents::{Fields, Header};
use crate::difference::Compared;
use crate::report::Report;
use crate::session::{Session, Step};
use crate::shift::{Answer, Places};
use std::io::{BufReader, BufWriter, Read, Write};
use std::process::{Child, ChildStdin, ChildStdout, Command, Stdio};
use std::sync::Mutex;

/// The program, as build.rs compiled it.
const PROGRAM: &str = env!("BRIDGE");

struct Bridge {
    calls: BufWriter<ChildStdin>,
    answers: BufReader<ChildStdout>,
    program: Child,
}

/// The running program; the first call starts it.
static BRIDGE: Mutex<Option<Bridge>> = Mutex::new(None);

/// Closes the program's input and waits for its end; true if it exited with status 0 or was never started.
pub fn finish() -> bool {
    match BRIDGE.lock().unwrap().take() {
        Some(Bridge { calls, mut program, .. }) => {
            drop(calls);
            program.wait().is_ok_and(|status| status.success())
        }
        None => true,
    }
}

impl Bridge {
    fn start() -> Bridge {
        let mut command = if cfg!(target_arch = "x86_64") {
            Command::new(PROGRAM)
        } else {
            let mut command = Command::new("qemu-x86_64");
            command.arg(PROGRAM);
            command
        };
        let started = command.stdin(Stdio::piped()).stdout(Stdio::piped()).spawn();
        let mut program = started.unwrap_or_else(|e| panic!("{command:?}: {e}"));
        let (calls, answers) = (program.stdin.take().unwrap(), program.stdout.take().unwrap());
        Bridge { calls: BufWriter::new(calls), answers: BufReader::new(answers), program }
    }

    /// Sends one call, waits for its result and fills the outputs; returns the function's return value.
    fn call(&mut self, function: u8, arguments: &mut [Argument]) -> std::io::Result<u32> {
        self.calls.write_all(&[function])?;
        for argument in arguments.iter() {
            match argument {
                Number(number) => self.calls.write_all(&number.to_le_bytes())?,
                Input(bytes) => self.send(bytes)?,
                Output(bytes) => self.send(bytes)?,
            }
        }
        self.calls.flush()?;
        let mut status = [0; 4];
        self.answers.read_exact(&mut status)?;
        for argument in arguments {
            if let Output(bytes) = argument {
                self.answers.read_exact(bytes)?;
            }
        }
        Ok(u32::from_le_bytes(status))
    }

    fn send(&mut self, bytes: &[u8]) -> std::io::Result<()> {
        self.calls.write_all(&(bytes.len() as u32).to_le_bytes())?;
        self.calls.write_all(bytes)
    }
}

/// An argument of a function of snoekeldraf.h; the function writes into an `Output`.
enum Argument<'a> {
    Number(u64),
    Input(&'a [u8]),
    Output(&'a mut [u8]),
}

use Argument::{Input, Number, Output};

/// The bytes of an output integer before the call.
const UNWRITTEN: [u8; 4] = [0xa5; 4];

/// The return value of a function, and its last N outputs, which are integers. `function` is its index in the table of
/// bridge.c.
fn call<const N: usize>(function: u8, arguments: Vec<Argument>) -> (u32, [u32; N]) {
    let mut numbers = [UNWRITTEN; N];
    let mut all = arguments;
    all.extend(numbers.iter_mut().map(|number| Output(number)));
    let mut bridge = BRIDGE.lock().unwrap();
    let bridge = bridge.get_or_insert_with(Bridge::start);
    let status = bridge.call(function, &mut all).unwrap_or_else(|e| panic!("{PROGRAM}, function {function}: {e}"));
    (status, numbers.map(u32::from_le_bytes))
}

fn seal(suite: u8, key: &[u8], nonce: &[u8], ad: &[u8], msg: &[u8], out: &mut [u8], tag: &mut [u8]) -> u32 {
    let arguments =
        vec![Number(suite.into()), Input(key), Input(nonce), Input(ad), Input(msg), Output(out), Output(tag)];
    call::<0>(0, arguments).0
}

fn open(suite: u8, key: &[u8], nonce: &[u8], ad: &[u8], text: &[u8], tag: &[u8], out: &mut [u8]) -> u32 {
    let arguments =
        vec![Number(suite.into()), Input(key), Input(nonce), Input(ad), Input(text), Input(tag), Output(out)];
    call::<0>(1, arguments).0
}

fn check(file: &[u8]) -> Answer {
    let (status, [row]) = call(2, vec![Input(file)]);
    (status, row)
}

fn lookup(file: &[u8], job: u32) -> Answer {
    let (status, [row]) = call(3, vec![Input(file), Number(job.into())]);
    (status, row)
}

/// Status, and offset and length of the associated data in the file.
fn associated(file: &[u8], job: u32) -> (u32, usize, usize) {
    let (status, [at, length]) = call(4, vec![Input(file), Number(job.into())]);
    (status, at as usize, length as usize)
}

fn open_job(file: &[u8], ring: &[u8], job: u32, out: &mut [u8]) -> Answer {
    let (status, [row]) = call(5, vec![Input(file), Input(ring), Number(job.into()), Output(out)]);
    (status, row)
}

fn entry(file: &[u8], job: u32) -> (Answer, Places) {
    let (status, [row, extents @ ..]) = call::<5>(6, vec![Input(file), Number(job.into())]);
    ((status, row), extents.map(|value| value as usize))
}

fn verified(file: &[u8], ring: &[u8], job: u32) -> (Answer, usize, usize) {
    let (status, [row, at, length]) = call(28, vec![Input(file), Input(ring), Number(job.into())]);
    ((status, row), at as usize, length as usize)
}

/// A session's nine words as bytes in memory order: suite, Y, Z, held bytes, totals.
fn flat(s: &Session) -> [u8; 72] {
    let [suite, ad_total, text_total] = [s.suite as u64, s.ad_total as u64, s.text_total as u64].map(u64::to_le_bytes);
    let all = [&suite[..], &s.y, &s.z, &s.held, &ad_total, &text_total].concat();
    all.try_into().unwrap()
}

/// The inverse of `flat`.
fn session_of(flat: &[u8; 72]) -> Session {
    let block = |at: usize| flat[at..at + 16].try_into().unwrap();
    let word = |at: usize| u64::from_le_bytes(flat[at..at + 8].try_into().unwrap());
    let suite = word(0).try_into().expect("no call writes a suite over 255");
    let [ad_total, text_total] = [56, 64].map(|at| word(at) as usize);
    Session { suite, y: block(8), z: block(24), held: block(40), ad_total, text_total }
}

/// Calls a session function on a session's words and the other arguments. N is 1 for the functions that write a count,
/// else 0.
fn step<const N: usize>(function: u8, mut words: [u8; 72], rest: Vec<Argument>) -> Step {
    let mut arguments = vec![Output(&mut words)];
    arguments.extend(rest);
    let (status, counts) = call::<N>(function, arguments);
    Step { next: session_of(&words), number: status, count: counts.first().map_or(0, |count| *count as usize) }
}

fn session_start(suite: u8, key: &[u8], nonce: &[u8]) -> Step {
    step::<0>(7, [0xa5; 72], vec![Number(suite.into()), Input(key), Input(nonce)])
}

fn session_data(session: Session, ad: &[u8]) -> Step {
    step::<0>(8, flat(&session), vec![Input(ad)])
}

fn session_part(session: Session, msg: &[u8], out: &mut [u8]) -> Step {
    step::<1>(9, flat(&session), vec![Input(msg), Output(out)])
}

fn session_end(session: Session, out: &mut [u8], tag: &mut [u8]) -> Step {
    step::<1>(10, flat(&session), vec![Output(out), Output(tag)])
}

fn session_wipe(session: Session) -> Session {
    step::<0>(27, flat(&session), vec![]).next
}

fn seal_file(draft: &[u8], ring: &[u8], out: &mut [u8]) -> Answer {
    let (status, [row]) = call(11, vec![Input(draft), Input(ring), Output(out)]);
    (status, row)
}

fn unseal_file(file: &[u8], ring: &[u8], out: &mut [u8]) -> Answer {
    let (status, [row]) = call(12, vec![Input(file), Input(ring), Output(out)]);
    (status, row)
}

/// Status and row, and how many rows the search read.
fn search(file: &[u8], job: u32) -> (Answer, u32) {
    let (status, [row, looked]) = call(13, vec![Input(file), Number(job.into())]);
    ((status, row), looked)
}

fn reseal(file: &[u8], ring: &[u8], out: &mut [u8]) -> Answer {
    let (status, [row]) = call(14, vec![Input(file), Input(ring), Output(out)]);
    (status, row)
}

/// The bytes of a list of integers in memory order.
fn bytes_of(list: &[u32]) -> Vec<u8> {
    list.iter().flat_map(|number| number.to_le_bytes()).collect()
}

fn numbers_of(bytes: &[u8]) -> Vec<u32> {
    bytes.chunks(4).map(|number| u32::from_le_bytes(number.try_into().unwrap())).collect()
}

fn compare(first: &[u8], second: &[u8], lists: [&mut [u32]; 3]) -> Compared {
    let mut buffers = [bytes_of(lists[0]), bytes_of(lists[1]), bytes_of(lists[2])];
    let [one, other, both] = &mut buffers;
    let arguments = vec![Input(first), Input(second), Output(one), Output(other), Output(both)];
    let (status, [a, b, c, file, row]) = call(15, arguments);
    for (list, bytes) in lists.into_iter().zip(&buffers) {
        list.copy_from_slice(&numbers_of(bytes));
    }
    Compared { number: status, file, row, counts: [a, b, c] }
}

fn moved_length(file: &[u8]) -> usize {
    call::<0>(26, vec![Input(file)]).0 as usize
}

fn to_edition2(file: &[u8], out: &mut [u8]) -> Answer {
    let (status, [row]) = call(16, vec![Input(file), Output(out)]);
    (status, row)
}

fn to_edition1(file: &[u8], out: &mut [u8]) -> Answer {
    let (status, [row]) = call(17, vec![Input(file), Output(out)]);
    (status, row)
}

fn amended(amendment: &[u8], day: &[u8], job: u32) -> Amended {
    let (status, [file, row, at, length]) = call(18, vec![Input(amendment), Input(day), Number(job.into())]);
    Amended { number: status, file, row, at: at as usize, length: length as usize }
}

fn open_current(amendment: &[u8], day: &[u8], ring: &[u8], job: u32, out: &mut [u8]) -> (u32, u32, u32) {
    let arguments = vec![Input(amendment), Input(day), Input(ring), Number(job.into()), Output(out)];
    let (status, [file, row]) = call(19, arguments);
    (status, file, row)
}

#[rustfmt::skip]
fn seal_counted(
    suite: u8, key: &[u8], nonce: &[u8], ad: &[u8], msg: &[u8], out: &mut [u8], tag: &mut [u8],
) -> (u32, u64) {
    let mut calls = [0xa5; 8];
    let mut arguments = vec![Number(suite.into()), Input(key), Input(nonce), Input(ad), Input(msg), Output(out), Output(tag)];
    arguments.push(Output(&mut calls));
    let (status, []) = call(20, arguments);
    (status, u64::from_le_bytes(calls))
}

#[rustfmt::skip]
fn open_counted(
    suite: u8, key: &[u8], nonce: &[u8], ad: &[u8], text: &[u8], tag: &[u8], out: &mut [u8],
) -> (u32, u64) {
    let mut calls = [0xa5; 8];
    let mut arguments = vec![Number(suite.into()), Input(key), Input(nonce), Input(ad), Input(text), Input(tag), Output(out)];
    arguments.push(Output(&mut calls));
    let (status, []) = call(21, arguments);
    (status, u64::from_le_bytes(calls))
}

/// Calls a function that works in place. Text and tag are outputs for all three functions, so that the comparison sees a
/// byte that was written by mistake.
#[rustfmt::skip]
fn on_record(
    function: u8, suite: u8, key: &[u8], nonce: &[u8], ad: &[u8], text: &mut [u8], tag: &mut [u8],
) -> u32 {
    let arguments = vec![Number(suite.into()), Input(key), Input(nonce), Input(ad), Output(text), Output(tag)];
    call::<0>(function, arguments).0
}

fn seal_in_place(suite: u8, key: &[u8], nonce: &[u8], ad: &[u8], text: &mut [u8], tag: &mut [u8]) -> u32 {
    on_record(23, suite, key, nonce, ad, text, tag)
}

fn open_in_place(suite: u8, key: &[u8], nonce: &[u8], ad: &[u8], text: &mut [u8], tag: &mut [u8]) -> u32 {
    on_record(24, suite, key, nonce, ad, text, tag)
}

fn verify(suite: u8, key: &[u8], nonce: &[u8], ad: &[u8], text: &mut [u8], tag: &mut [u8]) -> u32 {
    on_record(25, suite, key, nonce, ad, text, tag)
}

fn report(file: &[u8], ring: &[u8], jobs: &mut [u32], numbers: &mut [u8]) -> Report {
    let mut job_bytes = bytes_of(jobs);
    let (status, [count, row]) = call(22, vec![Input(file), Input(ring), Output(&mut job_bytes), Output(numbers)]);
    jobs.copy_from_slice(&numbers_of(&job_bytes));
    Report { number: status, row, count }
}

fn contents_header(file: &[u8]) -> Header {
    let (status, [edition, count]) = call(29, vec![Input(file)]);
    (status, edition, count)
}

fn contents_row(file: &[u8], row: u32) -> (u32, Fields) {
    let mut fields = [0xa5; 36];
    let (status, []) = call(30, vec![Input(file), Number(row.into()), Output(&mut fields)]);
    (status, numbers_of(&fields).try_into().unwrap())
}

pub const PROVED: Library = Library {
    seal,
    open,
    seal_in_place,
    open_in_place,
    verify,
    check,
    lookup,
    associated,
    entry,
    open_job,
    verified,
    session_start,
    session_data,
    session_part,
    session_end,
    session_wipe,
    seal_file,
    unseal_file,
    search,
    reseal,
    compare,
    moved_length,
    to_edition2,
    to_edition1,
    amended,
    open_current,
    seal_counted,
    open_counted,
    report,
    contents_header,
    contents_row,
};

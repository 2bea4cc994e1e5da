//! The reference implementation's answer to a case of the vectors, in the protocol of vectors/README.md.

use super::json::Object;
use super::mistakes::{self, Mistake};
use crate::comet;
use crate::session::{self, Session, Step};
use crate::shift::Answer;
use crate::show::hex;
use crate::{amendment, difference, editions, report, reseal, search, shift, writer};

/// Every byte of an output buffer before a call.
pub const BEFORE: u8 = 0xa5;

/// The answer to a case; None if the call is unknown. A mistake changes how records are sealed and opened.
pub fn answer(case: &Object, mistake: Mistake) -> Option<Object> {
    Some(match case.text_of("call") {
        "cipher" => cipher(case),
        "seal" => seal(case, mistake),
        "open" => open(case, mistake),
        "session" => session_calls(case),
        "check" => of_row(shift::check(&case.bytes_of("file"))),
        "lookup" => lookup(case),
        "search" => search_call(case),
        "open_job" => open_job(case),
        "verified" => verified(case),
        "seal_file" => file_written(case, writer::seal_file),
        "unseal_file" => file_written(case, writer::unseal_file),
        "reseal" => file_written(case, reseal::reseal),
        "to_edition2" => moved(case, editions::to_edition2),
        "to_edition1" => moved(case, editions::to_edition1),
        "amended" => amended(case),
        "open_amended" => open_amended(case),
        "compare" => compare(case),
        "report" => report_call(case),
        _ => return None,
    })
}

fn of_status(status: u32) -> Object {
    Object::default().number("status", status)
}

fn of_row((status, row): Answer) -> Object {
    of_status(status).number("row", row)
}

/// An output buffer before the call, with the length that the case gives in the field `len`.
fn output(case: &Object, len: &str) -> Vec<u8> {
    vec![BEFORE; case.number_of(len) as usize]
}

fn suite(case: &Object) -> u8 {
    case.number_of("suite") as u8
}

fn job(case: &Object) -> u32 {
    case.number_of("job") as u32
}

fn cipher(case: &Object) -> Object {
    let key = case.bytes_of("key").try_into().expect("16 bytes");
    of_status(0).text("out", hex(&comet::encipher(suite(case), &key, &case.bytes_of("block"))))
}

fn seal(case: &Object, mistake: Mistake) -> Object {
    let [key, nonce, ad, msg] = ["key", "nonce", "ad", "msg"].map(|name| case.bytes_of(name));
    let (mut out, mut tag) = (output(case, "out_len"), output(case, "tag_len"));
    let status = comet::seal(suite(case), &key, &nonce, &ad, &msg, &mut out, &mut tag);
    if status == 0 && mistake != Mistake::None {
        (out, tag) = mistakes::seal(mistake, suite(case), &key, &nonce, &ad, &msg);
    }
    of_status(status).text("out", hex(&out)).text("tag", hex(&tag))
}

fn open(case: &Object, mistake: Mistake) -> Object {
    let [key, nonce, ad, text, tag] = ["key", "nonce", "ad", "text", "tag"].map(|name| case.bytes_of(name));
    let mut out = output(case, "out_len");
    let mut status = comet::open(suite(case), &key, &nonce, &ad, &text, &tag, &mut out);
    if [0, 8].contains(&status) && mistake != Mistake::None {
        (status, out) = mistakes::open(mistake, suite(case), &key, &nonce, &ad, &text, &tag);
    }
    of_status(status).text("out", hex(&out))
}

/// A session and the results of its calls so far.
struct Run {
    session: Session,
    statuses: Vec<String>,
    counts: Vec<String>,
    ad: Vec<u8>,
    msg: Vec<u8>,
    out: Vec<u8>,
    tag: Vec<u8>,
}

impl Run {
    fn note(&mut self, step: Step) {
        self.session = step.next;
        self.statuses.push(step.number.to_string());
        self.counts.push(step.count.to_string());
    }

    /// Makes the call of one word of `steps`: a part of the associated data, a part of the message, or the end.
    fn call(&mut self, word: &str) {
        let (kind, numbers) = word.split_at(1);
        let numbers: Vec<usize> = numbers.split(':').map(|n| n.parse().expect("a number")).collect();
        let mut out = vec![BEFORE; if kind == "m" { numbers[1] } else { numbers[0] }];
        let step = match kind {
            "a" => session::data(self.session, &self.ad[..numbers[0]]),
            "m" => session::part(self.session, &self.msg[..numbers[0]], &mut out),
            _ => {
                self.tag = vec![BEFORE; numbers[1]];
                session::end(self.session, &mut out, &mut self.tag)
            }
        };
        if step.number == 0 && kind != "e" {
            let taken = if kind == "a" { &mut self.ad } else { &mut self.msg };
            taken.drain(..numbers[0]);
        }
        self.out.extend(&out[..step.count]);
        self.note(step);
    }
}

fn session_calls(case: &Object) -> Object {
    let [key, nonce, ad, msg] = ["key", "nonce", "ad", "msg"].map(|name| case.bytes_of(name));
    let (statuses, counts, out, tag) = (vec![], vec![], vec![], vec![]);
    let mut run = Run { session: session::OVER, statuses, counts, ad, msg, out, tag };
    run.note(session::start(suite(case), &key, &nonce));
    case.text_of("steps").split_whitespace().for_each(|word| run.call(word));
    let [statuses, counts] = [run.statuses, run.counts].map(|list| list.join(" "));
    Object::default()
        .text("statuses", statuses)
        .text("counts", counts)
        .text("out", hex(&run.out))
        .text("tag", hex(&run.tag))
}

fn lookup(case: &Object) -> Object {
    let file = case.bytes_of("file");
    let (at, len) = shift::associated_place(&file, job(case));
    of_row(shift::lookup(&file, job(case))).number("at", at as u64).number("len", len as u64)
}

fn search_call(case: &Object) -> Object {
    let (answer, looked) = search::search(&case.bytes_of("file"), job(case));
    of_row(answer).number("looked", looked)
}

fn open_job(case: &Object) -> Object {
    let mut out = output(case, "out_len");
    let answer = shift::open_job(&case.bytes_of("file"), &case.bytes_of("ring"), job(case), &mut out);
    of_row(answer).text("out", hex(&out))
}

fn verified(case: &Object) -> Object {
    let (answer, at, len) = shift::verified(&case.bytes_of("file"), &case.bytes_of("ring"), job(case));
    of_row(answer).number("at", at as u64).number("len", len as u64)
}

fn file_written(case: &Object, routine: fn(&[u8], &[u8], &mut [u8]) -> Answer) -> Object {
    let mut out = output(case, "out_len");
    let answer = routine(&case.bytes_of("file"), &case.bytes_of("ring"), &mut out);
    of_row(answer).text("out", hex(&out))
}

fn moved(case: &Object, routine: fn(&[u8], &mut [u8]) -> Answer) -> Object {
    let mut out = output(case, "out_len");
    let answer = routine(&case.bytes_of("file"), &mut out);
    of_row(answer).text("out", hex(&out))
}

fn amended(case: &Object) -> Object {
    let found = amendment::amended(&case.bytes_of("amendment"), &case.bytes_of("day"), job(case));
    let answer = of_status(found.number).number("file", found.file).number("row", found.row);
    answer.number("at", found.at as u64).number("len", found.length as u64)
}

fn open_amended(case: &Object) -> Object {
    let [amendment, day, ring] = ["amendment", "day", "ring"].map(|name| case.bytes_of(name));
    let mut out = output(case, "out_len");
    let (status, file, row) = amendment::open_current(&amendment, &day, &ring, job(case), &mut out);
    of_status(status).number("file", file).number("row", row).text("out", hex(&out))
}

/// The numbers separated by single spaces.
fn listed<T: ToString>(list: &[T]) -> String {
    list.iter().map(T::to_string).collect::<Vec<_>>().join(" ")
}

fn compare(case: &Object) -> Object {
    let mut lists = ["first_len", "second_len", "differ_len"].map(|name| vec![0; case.number_of(name) as usize]);
    let [first, second, differ] = &mut lists;
    let found = difference::compare(&case.bytes_of("first"), &case.bytes_of("second"), [first, second, differ]);
    let [first, second, differ] = [0, 1, 2].map(|i| listed(&lists[i][..found.counts[i] as usize]));
    let answer = of_status(found.number).number("file", found.file).number("row", found.row);
    answer.text("first", first).text("second", second).text("differ", differ)
}

fn report_call(case: &Object) -> Object {
    let mut jobs = vec![0; case.number_of("jobs_len") as usize];
    let mut numbers = vec![0; case.number_of("numbers_len") as usize];
    let found = report::report(&case.bytes_of("file"), &case.bytes_of("ring"), &mut jobs, &mut numbers);
    let count = found.count as usize;
    of_row((found.number, found.row)).text("jobs", listed(&jobs[..count])).text("numbers", listed(&numbers[..count]))
}

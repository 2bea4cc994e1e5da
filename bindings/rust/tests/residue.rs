//! What stays in memory: nothing of key, state or message on the stack after a call, nothing in a value after it was dropped.
//!
//! A call is made deep in a thread's stack; then the stack below is copied and searched for every 8 bytes of the secrets. The
//! same calls without `snoekeldraf_forget` leave residue that the search finds.

/// The C functions themselves, for the calls without `snoekeldraf_forget`.
#[allow(dead_code)]
#[path = "../src/raw.rs"]
mod raw;

use snoekeldraf::{
    forget, open, open_in_place, seal, seal_in_place, unseal, verify, Draft, Key, Nonce, Record, Ring, Sealed, Session,
    ShiftFile, Suite, Tag,
};
use std::collections::BTreeSet;
use std::hint::black_box;
use std::mem::MaybeUninit;

/// How much of the stack is searched: more than the library's deepest call and what is above it.
const DEPTH: usize = 96 << 10;

/// How far below the search's own frames a call is made.
const APART: usize = 8 << 10;

/// Makes the call well below the caller's frame.
#[inline(never)]
fn deep(call: &mut dyn FnMut()) {
    let apart = [0u8; APART];
    black_box(&apart);
    call();
    black_box(&apart);
}

/// Copies the stack below this function's frame.
#[inline(never)]
fn copy_stack(to: &mut [u8]) {
    let here = 0u8;
    let low = black_box(&here) as *const u8 as usize - to.len();
    for (i, byte) in to.iter_mut().enumerate() {
        // SAFETY: the thread's stack is 1 MiB, mapped as a whole, and no frame lies this deep now.
        *byte = unsafe { std::ptr::read_volatile((low + i) as *const u8) };
    }
}

/// How many 8-byte pieces of the secrets are found on the stack after the call.
fn residue(secrets: &BTreeSet<[u8; 8]>, call: impl FnMut() + Send) -> usize {
    let mut call = call;
    let search = || {
        let mut stack = vec![0; DEPTH];
        deep(&mut call);
        copy_stack(&mut stack);
        stack.windows(8).filter(|window| secrets.contains(*window)).count()
    };
    std::thread::scope(|scope| {
        let thread = std::thread::Builder::new().stack_size(1 << 20).spawn_scoped(scope, search);
        thread.unwrap().join().unwrap()
    })
}

/// Every 8 bytes in a row.
fn pieces(secret: &[u8]) -> impl Iterator<Item = [u8; 8]> + '_ {
    secret.windows(8).map(|window| window.try_into().unwrap())
}

const MESSAGE: &[u8; 64] = b"torque 48.5 48.7 48.4 48.6 48.5 48.8 48.5 48.6 48.4 48.7 48.5 !!";
const KEY: [u8; 16] = [0x8b, 1, 0x92, 0x3f, 4, 0x55, 0xa6, 7, 0xe8, 0x99, 0x1a, 0xbb, 0x2c, 0xcd, 0x3e, 0xdf];
const AD: &[u8; 5] = &[7, 0, 0, 0, 1];

fn nonce_bytes(suite: Suite) -> Vec<u8> {
    (0..suite.nonce_size() as u8).map(|i| 0x61 + i).collect()
}

fn nonce(suite: Suite) -> Nonce {
    Nonce::assume_fresh(&nonce_bytes(suite)).unwrap()
}

/// Key, message, and the states after the start, the associated data and each block of the message.
fn secrets(suite: Suite) -> BTreeSet<[u8; 8]> {
    let mut all: BTreeSet<[u8; 8]> = pieces(&KEY).chain(pieces(MESSAGE)).collect();
    let (mut words, mut out) = (Box::new([0; 9]), [0; 32]);
    let mut add =
        |words: &raw::Words| all.extend(words[1..5].iter().filter(|word| **word != 0).map(|word| word.to_le_bytes()));
    raw::session_start(&mut words, suite.number(), &KEY, &nonce_bytes(suite));
    add(&words);
    raw::session_data(&mut words, AD);
    for part in MESSAGE.chunks(suite.block_size()) {
        raw::session_part(&mut words, part, &mut out);
        add(&words);
    }
    all
}

/// Takes a result that the test does not look at.
fn used<T>(result: T) {
    black_box(result);
}

fn sealing_suites() -> impl Iterator<Item = Suite> {
    Suite::ALL.into_iter().filter(|suite| !suite.is_retired())
}

/// Key and message on the heap, and what is sealed of them.
struct Fixture {
    suite: Suite,
    key: Box<Key>,
    message: Vec<u8>,
    nonce: Vec<u8>,
    text: Vec<u8>,
    tag: Tag,
}

fn fixture(suite: Suite) -> Fixture {
    let (key, message, mut text) = (Box::new(Key::from(KEY)), MESSAGE.to_vec(), vec![0; 64]);
    let tag = seal(suite, &key, nonce(suite), Record { ad: AD, text: &message }, &mut text).unwrap();
    Fixture { suite, key, message, nonce: nonce_bytes(suite), text, tag }
}

#[test]
fn records() {
    for Fixture { suite, key, message, nonce: its_nonce, text, tag } in sealing_suites().map(fixture) {
        let (secrets, mut out, mut place) = (secrets(suite), vec![0; 64], message.clone());
        let sealed = Sealed { nonce: &its_nonce, ad: AD, text: &text, tag: tag.as_bytes() };
        let record = Record { ad: AD, text: &message };
        let left = [
            residue(&secrets, || used(seal(suite, &key, nonce(suite), record, &mut out).unwrap())),
            residue(&secrets, || open(suite, &key, sealed, &mut out).unwrap()),
            residue(&secrets, || verify(suite, &key, sealed).unwrap()),
            residue(&secrets, || used(seal_in_place(suite, &key, nonce(suite), AD, &mut place).unwrap())),
            residue(&secrets, || open_in_place(suite, &key, &its_nonce, AD, &mut place, tag).unwrap()),
            residue(&secrets, || {
                assert!(open(suite, &key, Sealed { tag: &[0; 16][..tag.as_bytes().len()], ..sealed }, &mut out).is_err())
            }),
        ];
        assert_eq!(left, [0; 6], "{suite}");
    }
}

/// Calls a function that has its own frame.
#[inline(never)]
fn in_its_frame(call: &mut dyn FnMut()) {
    call();
    black_box(());
}

/// The session stays where it is between the calls, on the heap. Start and end move it: what that leaves in the frame of the
/// function that moves it, `forget` overwrites.
#[test]
fn sessions() {
    for Fixture { suite, key, message, .. } in sealing_suites().map(fixture) {
        let (secrets, mut out) = (secrets(suite), vec![0; 80]);
        let mut session: Box<Option<Session>> = Box::new(None);
        let started = residue(&secrets, || {
            in_its_frame(&mut || *session = Session::start(suite, &key, nonce(suite)).ok());
            forget();
        });
        let mut at = |call: &mut (dyn FnMut(&mut Session) + Send)| {
            let session = session.as_mut().as_mut().unwrap();
            residue(&secrets, || call(session))
        };
        let left = [
            at(&mut |session| session.data(AD).unwrap()),
            at(&mut |session| used(session.part(&message[..20], &mut out).unwrap())),
            at(&mut |session| used(session.part(&message[20..], &mut out).unwrap())),
        ];
        assert_eq!((started, left), (0, [0; 3]), "{suite}");
        let ended = residue(&secrets, || {
            in_its_frame(&mut || used(session.take().unwrap().end(&mut out).unwrap()));
            forget();
        });
        assert_eq!(ended, 0, "{suite}: end");
        *session = Session::start(suite, &key, nonce(suite)).ok();
        assert_eq!(residue(&secrets, || *session = None), 0, "{suite}: dropped");
    }
}

#[test]
fn files() {
    let (ring_bytes, bytes) = (read("ring.keys"), read("day.shift"));
    let ring = Box::new(Ring::try_from(&ring_bytes[..]).unwrap());
    let file = ShiftFile::check(&bytes).unwrap();
    let mut draft = vec![0; bytes.len()];
    unseal(&bytes, &ring, &mut draft).unwrap();
    for entry in file.entries() {
        let mut out = vec![0; entry.text.len()];
        file.open_job(&ring, entry.unverified_job, &mut out).unwrap();
        let key = &ring_bytes[16 * entry.key_number as usize..][..16];
        let secrets: BTreeSet<[u8; 8]> = pieces(key).chain(pieces(&out)).collect();
        let left = [
            residue(&secrets, || used(file.open_job(&ring, entry.unverified_job, &mut out).unwrap())),
            residue(&secrets, || used(file.verified(&ring, entry.unverified_job).unwrap())),
            residue(&secrets, || used(entry.open(&ring, &mut out).unwrap())),
            residue(&secrets, || used(entry.verify(&ring).unwrap())),
            residue(&secrets, || unseal(&bytes, &ring, &mut draft).unwrap()),
        ];
        assert_eq!(left, [0; 5], "job {}", entry.unverified_job);
    }
    let (draft, secrets) = (read("day.draft"), pieces(&ring_bytes).collect());
    let mut sealed = vec![0; draft.len()];
    assert_eq!(residue(&secrets, || Draft::check(&draft).unwrap().seal(&ring, &mut sealed).unwrap()), 0);
}

fn read(name: &str) -> Vec<u8> {
    std::fs::read(format!("../../samples/{name}")).unwrap()
}

/// The search finds what a call leaves: without `snoekeldraf_forget` every suite leaves something.
#[test]
fn residue_is_found() {
    for suite in sealing_suites() {
        let (mut out, mut tag, its_nonce) = (vec![0; 64], vec![0; suite.tag_size()], nonce_bytes(suite));
        let (key, message) = (KEY.to_vec(), MESSAGE.to_vec());
        let left = residue(&secrets(suite), || {
            assert_eq!(raw::seal(suite.number(), &key, &its_nonce, AD, &message, &mut out, &mut tag), 0);
        });
        println!("{suite}: {left} pieces without snoekeldraf_forget");
        assert!(left > 0, "{suite}");
    }
}

/// Drops a value in place and returns the bytes that are left of it.
fn dropped<T>(value: T) -> Vec<u8> {
    let mut slot = Box::new(MaybeUninit::new(value));
    // SAFETY: the value is there and is dropped once; its memory is read before it is freed, padding as it happens to be.
    unsafe {
        std::ptr::drop_in_place(slot.as_mut_ptr());
        let start = slot.as_ptr().cast::<u8>();
        (0..size_of::<T>()).map(|i| std::ptr::read_volatile(start.add(i))).collect()
    }
}

#[test]
fn dropped_values() {
    assert_eq!(dropped(Key::from(KEY)), [0; 16]);
    assert_eq!(dropped(Ring::from([0xab; 256])), [0; 256]);
    for suite in sealing_suites() {
        let left = dropped(Session::start(suite, &Key::from(KEY), nonce(suite)).unwrap());
        let secrets = secrets(suite);
        assert!(left.len() >= 72 && !left.windows(8).any(|window| secrets.contains(window)), "{suite}");
    }
}

//! What the reference's cases do not reach: empty slices, shared inputs, words, what is shown, what a row is.

use snoekeldraf::*;
use std::error::Error;

fn sample(name: &str) -> Vec<u8> {
    std::fs::read(format!("../../samples/{name}")).unwrap()
}

fn ring() -> Ring {
    Ring::try_from(&sample("ring.keys")[..]).unwrap()
}

fn nonce(bytes: &[u8]) -> Nonce {
    Nonce::assume_fresh(bytes).unwrap()
}

/// Reason, row and file of a refusal.
fn parts<T>(result: Result<T, Refused>) -> (u32, Option<u32>, Option<u32>) {
    let refused = result.err().unwrap();
    (refused.number(), refused.row, refused.file)
}

fn number<T>(result: Result<T, Refused>) -> u32 {
    parts(result).0
}

/// An empty slice of Rust has a pointer to no bytes; every argument is such a slice in turn.
#[test]
fn empty_slices() {
    let key = Key::from([7; 16]);
    let empty = Record { ad: &[], text: &[] };
    for suite in Suite::ALL.into_iter().filter(|suite| !suite.is_retired()) {
        let bytes = vec![1; suite.nonce_size()];
        let tag = seal(suite, &key, nonce(&bytes), empty, &mut []).unwrap();
        let sealed = Sealed { nonce: &bytes, ad: &[], text: &[], tag: tag.as_bytes() };
        open(suite, &key, sealed, &mut []).unwrap();
        let (ad, text) = (Vec::new(), Vec::new());
        open(suite, &key, Sealed { ad: &ad, text: &text, ..sealed }, Vec::new().as_mut_slice()).unwrap();
        assert_eq!(number(open(suite, &key, Sealed { nonce: &[], ..sealed }, &mut [])), 3);
        assert_eq!(number(open(suite, &key, Sealed { tag: &[], ..sealed }, &mut [])), 7);
        assert_eq!(number(seal(suite, &key, nonce(&bytes), Record { text: b"m", ..empty }, &mut [])), 6);
        let mut session = Session::start(suite, &key, nonce(&bytes)).unwrap();
        let mut buffer = [0; 16];
        session.data(&[]).unwrap();
        assert!(session.part(&[], &mut buffer[..15]).unwrap().is_empty());
        session.data(&[]).unwrap(); // an empty part has not begun the message
        assert_eq!(number(session.part(&[], &mut [])), 6);
        let (rest, its_tag) = session.end(&mut buffer).unwrap();
        assert!(rest.is_empty() && its_tag == tag);
    }
}

#[test]
fn empty_files() {
    assert_eq!(number(ShiftFile::check(&[])), 20);
    assert_eq!(number(Draft::check(&[])), 20);
    assert_eq!(number(search(&[], 1).found), 20);
    assert_eq!(number(unseal(&[], &ring(), &mut [])), 20);
    assert_eq!(number(reseal(&[], &ring(), &mut [])), 20);
    assert_eq!(number(to_edition2(&[], &mut [])), 20);
    assert_eq!(number(to_edition1(&[], &mut [])), 20);
    assert_eq!(parts(unverified_current(&[], &[], 1)), (20, None, Some(1)));
    assert_eq!(parts(compare(&[], &[], &mut [], &mut [], &mut [])), (20, None, Some(1)));
    let empty = [1, 0, 0, 0, 8, 0, 0, 0];
    assert_eq!(report(&empty, &ring(), &mut [], &mut []).unwrap().jobs, []);
    assert_eq!(compare(&empty, &empty, &mut [], &mut [], &mut []).unwrap().differ, []);
    assert_eq!(parts(compare(&empty, &[], &mut [], &mut [], &mut [])), (20, None, Some(2)));
    assert_eq!(number(ShiftFile::check(&empty).unwrap().verified(&ring(), 1)), 32);
}

/// What is only read may be the same bytes more than once.
#[test]
fn shared_inputs() {
    let bytes = [9; 16];
    let key = Key::from(bytes);
    let mut text = [0; 16];
    let tag = seal(Suite::Aes128, &key, nonce(&bytes), Record { ad: &bytes, text: &bytes }, &mut text).unwrap();
    let mut message = [0; 16];
    let sealed = Sealed { nonce: &bytes, ad: &bytes, text: &text, tag: tag.as_bytes() };
    open(Suite::Aes128, &key, sealed, &mut message).unwrap();
    assert_eq!(message, bytes);
    let day = sample("day.shift");
    let mut lists = [[0; 8]; 3];
    let [a, b, c] = &mut lists;
    let same = compare(&day, &day, a, b, c).unwrap();
    assert!(same.only_first.is_empty() && same.only_second.is_empty() && same.differ.is_empty());
    assert_eq!(unverified_current(&day, &day, 4103).unwrap().holder, Holder::Amendment);
}

/// A record of a file opened by its own parts, as an entry and as a job.
#[test]
fn three_ways_to_open() {
    let (day, ring) = (sample("day.shift"), ring());
    let file = ShiftFile::check(&day).unwrap();
    for entry in file {
        let [mut by_parts, mut by_entry, mut by_job] = [0; 3].map(|_: u8| vec![0; entry.text.len()]);
        let Entry { suite, nonce, unverified_ad: ad, text, tag, .. } = entry;
        open(suite, ring.key(entry.key_number).unwrap(), Sealed { nonce, ad, text, tag }, &mut by_parts).unwrap();
        let verified = entry.open(&ring, &mut by_entry).unwrap();
        assert_eq!(file.open_job(&ring, entry.unverified_job, &mut by_job), Ok(verified));
        assert!(by_parts == by_entry && by_entry == by_job);
        assert_eq!((entry.verify(&ring), file.verified(&ring, entry.unverified_job)), (Ok(verified), Ok(verified)));
    }
}

/// Bytes at every alignment.
#[test]
fn any_alignment() {
    let day = sample("day.shift");
    for shift in 0..8 {
        let mut moved = vec![0; day.len() + shift];
        moved[shift..].copy_from_slice(&day);
        let mut out = vec![0xa5; day.len() + 9];
        unseal(&moved[shift..], &ring(), &mut out[shift..][..day.len()]).unwrap();
        assert!(out[..shift].iter().chain(&out[shift + day.len()..]).all(|byte| *byte == 0xa5));
        assert_eq!(out[shift], 0);
        let mut jobs = [7; 12];
        let mut numbers = [7; 20];
        let report = report(&moved[shift..], &ring(), &mut jobs[shift % 4..], &mut numbers[shift..]).unwrap();
        assert!(report.is_genuine() && report.jobs.len() == 8);
        assert!(jobs[shift % 4 + 8..].iter().all(|place| *place == 7));
        assert!(numbers[shift + 8..].iter().all(|place| *place == 7));
    }
}

/// Every status has words of its own, and the reasons are the statuses.
#[test]
fn words() {
    let numbers: Vec<u32> = Reason::ALL.iter().map(|reason| reason.number()).collect();
    assert_eq!(numbers, (1..=10).chain(20..=36).collect::<Vec<u32>>());
    let words: Vec<&str> = Reason::ALL.iter().map(|reason| reason.words()).collect();
    for (i, each) in words.iter().enumerate() {
        assert!(each.len() > 5 && !words[..i].contains(each), "number {}", numbers[i]);
        assert!(!each.contains("no status"), "number {}", numbers[i]);
        assert_eq!(Reason::ALL[i].to_string(), *each);
    }
}

#[test]
fn errors() {
    let mut bad = sample("day.shift");
    bad[8 + 32..8 + 36].fill(0);
    let refused = compare(&sample("day.shift"), &bad, &mut [], &mut [], &mut []).unwrap_err();
    let words = "the row's job number is not above the row before's (status 25, row 1, file 2)";
    assert_eq!(refused.to_string(), words);
    let boxed: Box<dyn Error> = refused.into();
    assert!(boxed.downcast_ref::<Refused>().is_some());
    assert!(Box::<dyn Error + Send + Sync>::from(refused).source().is_none());
    let back = Session::start(Suite::Speck64, &Key::from([7; 16]), nonce(&[1; 15])).unwrap().end(&mut []).unwrap_err();
    assert_eq!(back.source().unwrap().to_string(), back.refused.to_string());
    assert_eq!(Refused::from(back).reason, Reason::OutputLength);
}

/// A file is given exactly where the number speaks of one: 32 and 36 speak of none.
#[test]
fn files_of_refusals() {
    let (day, amendment) = (sample("day.shift"), sample("amendment.shift"));
    assert_eq!(parts(unverified_current(&amendment, &day, 1)), (32, None, None));
    assert_eq!(parts(compare(&day, &amendment, &mut [], &mut [], &mut [])), (36, None, None));
    assert_eq!(parts(open_amended(&amendment, &day, &ring(), 4103, &mut [])), (6, None, Some(2)));
    assert_eq!(parts(open_amended(&amendment, &day, &ring(), 4102, &mut [])), (6, None, Some(1)));
}

/// A row is given exactly where the number carries one, row 0 too.
#[test]
fn rows_of_refusals() {
    let day = sample("day.shift");
    let wrong_ring = Ring::from([0; 256]);
    let mut out = vec![0; day.len()];
    assert_eq!(parts(unseal(&day, &wrong_ring, &mut out)), (8, Some(0), None));
    assert_eq!(parts(reseal(&day, &wrong_ring, &mut out)), (8, Some(3), None));
    assert_eq!(parts(unseal(&day, &ring(), &mut [])), (6, None, None));
    let file = ShiftFile::check(&day).unwrap();
    let mut message = vec![0; file.unverified_entry(4101).unwrap().text.len()];
    assert_eq!(parts(file.open_job(&wrong_ring, 4101, &mut message)), (8, None, None));
    assert_eq!(parts(file.verified(&wrong_ring, 4101)), (8, None, None));
    assert_eq!(parts(file.lookup(1)), (32, None, None));
    let mut bad = day.clone();
    bad[8 + 4] = 9; // the suite of row 0
    assert_eq!(parts(ShiftFile::check(&bad)), (26, Some(0), None));
    assert_eq!(parts(unverified_current(&day, &bad, 4101)), (26, Some(0), Some(2)));
    assert_eq!(parts(compare(&day, &bad, &mut [], &mut [], &mut [])), (26, Some(0), Some(2)));
    assert_eq!(parts(open_amended(&day, &day, &wrong_ring, 4101, &mut message)), (8, None, Some(1)));
    // a draft with suite 4, made of a row whose nonce has 15 bytes too
    let mut draft = sample("day.draft");
    let at = (0..7).map(|i| 8 + 32 * i).find(|at| draft[at + 4] == 3).unwrap();
    draft[at + 4] = 4;
    assert_eq!(parts(Draft::check(&draft)), (10, Some((at as u32 - 8) / 32), None));
}

/// Nothing of a key is shown.
#[test]
fn secrets_are_not_shown() {
    let key = Key::from([0xab; 16]);
    let session = Session::start(Suite::Speck64, &key, nonce(&[1; 15])).unwrap();
    assert_eq!(format!("{key:?} {:?} {session:?}", Ring::from([0xab; 256])), "Key(..) Ring(..) Session(Speck64, ..)");
    let back = session.end(&mut []).unwrap_err();
    assert!(format!("{back:?}").starts_with("HandedBack { session: Session(Speck64, ..)"));
}

/// The suites' sizes are the reference's; every other number is refused.
#[test]
fn suites() {
    for number in 0..=255 {
        match Suite::try_from(number) {
            Ok(suite) => {
                assert_eq!(u8::from(suite), number);
                assert_eq!(suite.block_size(), reference::comet::block_size(number));
                assert_eq!(suite.nonce_size(), reference::comet::nonce_size(number));
                assert_eq!(suite.is_retired(), reference::comet::is_retired(number));
            }
            Err(refused) => {
                assert_eq!(refused.reason, Reason::Suite);
                assert_eq!(reference::comet::block_size(number), 0);
            }
        }
    }
    assert!(Suite::ALL.is_sorted());
    let names: Vec<String> = Suite::ALL.iter().map(|suite| suite.to_string()).collect();
    assert!((0..6).all(|i| !names[..i].contains(&names[i])));
    assert_eq!(format!("{:>14}|{:<12}|", Unit::NewtonMetres, Unit::InchPounds), " newton-metres|inch-pounds |");
    assert_eq!((0..=255).filter(|number| Unit::try_from(*number).is_ok()).collect::<Vec<u8>>(), [1, 2]);
}

/// The keys of a ring are its bytes.
#[test]
fn keys_of_a_ring() {
    let bytes: [u8; 256] = core::array::from_fn(|i| i as u8);
    for ring in [Ring::from(bytes), Ring::try_from(&bytes[..]).unwrap(), Ring::from(bytes).clone()] {
        for number in 0..16 {
            let own = Key::from(core::array::from_fn(|i| 16 * number + i as u8));
            let [one, other] = [ring.key(number).unwrap(), &own]
                .map(|key| seal(Suite::Aes128, key, nonce(&[1; 16]), Record { ad: b"", text: b"" }, &mut []).unwrap());
            assert_eq!(one, other);
        }
        assert!((16..=255).all(|number| ring.key(number).is_none()));
    }
}

/// Tags are equal exactly if their bytes are.
#[test]
fn tags() {
    let tag = |bytes: &[u8]| Tag::try_from(bytes).unwrap();
    for len in [8, 16] {
        let bytes: Vec<u8> = (0..len).collect();
        assert_eq!(tag(&bytes), tag(&bytes));
        for bit in 0..8 * len as usize {
            let mut other = bytes.clone();
            other[bit / 8] ^= 1 << (bit % 8);
            assert_ne!(tag(&bytes), tag(&other));
        }
    }
    assert_ne!(tag(&[0; 8]), tag(&[0; 16]));
    assert!((0..40).filter(|len| Tag::try_from(&[0; 40][..*len]).is_ok()).eq([8, 16]));
    assert_eq!(format!("{:?}", tag(&[0xab; 8])), "Tag(abababababababab)");
}

/// Sessions, keys and checked files may go to another thread.
#[test]
fn threads() {
    fn moves<T: Send + Sync>() {}
    moves::<(Session, HandedBack, Key, Ring, Tag, Nonce, NonceCounter)>();
    moves::<(ShiftFile, Draft, Entries, Entry, Verified, Refused)>();
    let session = Session::start(Suite::Aes128, &Key::from([7; 16]), nonce(&[1; 16])).unwrap();
    let tag = std::thread::spawn(|| session.end(&mut [0; 16]).map(|(_, tag)| tag).unwrap()).join().unwrap();
    let record = Record { ad: b"", text: b"" };
    assert_eq!(tag, seal(Suite::Aes128, &Key::from([7; 16]), nonce(&[1; 16]), record, &mut []).unwrap());
}

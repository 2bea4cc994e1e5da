//! The functions that return a `Vec` give what those with a borrowed output give.
#![cfg(feature = "alloc")]

use reference::comet;
use reference::data::{files, samples};
use reference::random::Random;
use snoekeldraf::*;

fn ring() -> Ring {
    Ring::try_from(&samples::ring()[..]).unwrap()
}

/// Good files of both editions, and the same with edits.
fn some_files() -> Vec<Vec<u8>> {
    let mut random = Random::new(141);
    let mut all = vec![vec![], samples::day(), samples::stations(), samples::amendment(), samples::later_day()];
    for turn in 0..200 {
        let plan = files::random_plan(&mut random, turn % 7, 40).in_edition(1 + turn % 2);
        let mut file = plan.file(&samples::ring());
        for _ in 0..turn % 3 {
            reference::trials::edit(&mut random, &mut file, turn % 7);
        }
        all.push(file);
    }
    all
}

/// What the function writes to a borrowed output of this length.
fn borrowed(length: usize, function: impl Fn(&mut [u8]) -> Result<(), Refused>) -> Result<Vec<u8>, Refused> {
    let mut out = vec![0xa5; length];
    function(&mut out).map(|()| out)
}

#[test]
fn records() {
    let mut random = Random::new(142);
    let key = Key::from([7; 16]);
    let fresh = |bytes: &[u8]| Nonce::assume_fresh(bytes).unwrap();
    for suite in Suite::ALL {
        let nonce = random.bytes(suite.nonce_size());
        for length in 0..40 {
            let (ad, msg) = (random.bytes(length / 2), random.bytes(length));
            let (text, tag) = comet::specified(suite.number(), &[7; 16], &nonce, &ad, &msg);
            match seal_vec(suite, &key, fresh(&nonce), Record { ad: &ad, text: &msg }) {
                Ok((made, its_tag)) => assert_eq!((&made, its_tag.as_bytes()), (&text, &tag[..])),
                Err(refused) => assert!(suite.is_retired() && refused.reason == Reason::SuiteRetired),
            }
            let sealed = Sealed { nonce: &nonce, ad: &ad, text: &text, tag: &tag };
            assert_eq!(open_vec(suite, &key, sealed).unwrap(), msg);
            assert_eq!(open_vec(suite, &key, Sealed { tag: &tag[1..], ..sealed }).unwrap_err().number(), 7);
            let longer = [&ad[..], b"x"].concat();
            assert_eq!(open_vec(suite, &key, Sealed { ad: &longer, ..sealed }).unwrap_err().number(), 8);
        }
    }
    let long = Record { ad: &[], text: &[0; TEXT_BYTES_MAX + 1] };
    assert_eq!(seal_vec(Suite::Aes128, &key, fresh(&[1; 16]), long).unwrap_err().number(), 5);
}

#[test]
fn sessions() {
    let key = Key::from([7; 16]);
    for suite in Suite::ALL.into_iter().filter(|suite| !suite.is_retired()) {
        let nonce = || Nonce::assume_fresh(&vec![3; suite.nonce_size()]).unwrap();
        for cut in 1..40 {
            let msg: Vec<u8> = (0..40).collect();
            let mut text = b"before".to_vec();
            let mut session = Session::start(suite, &key, nonce()).unwrap();
            session.data(b"data").unwrap();
            session.part_vec(&msg[..cut], &mut text).unwrap();
            let before = text.clone();
            let refused = session.part_vec(&[0; TEXT_BYTES_MAX], &mut text).unwrap_err();
            assert_eq!((refused.reason, &text), (Reason::TextLength, &before));
            session.part_vec(&msg[cut..], &mut text).unwrap();
            let tag = session.end_vec(&mut text).unwrap();
            let at_once = seal_vec(suite, &key, nonce(), Record { ad: b"data", text: &msg }).unwrap();
            assert_eq!((text[6..].to_vec(), tag), at_once);
        }
    }
}

#[test]
fn tools() {
    let all = some_files();
    let mut done = 0;
    for file in &all {
        assert_eq!(unseal_vec(file, &ring()), borrowed(file.len(), |out| unseal(file, &ring(), out)));
        assert_eq!(reseal_vec(file, &ring()), borrowed(file.len(), |out| reseal(file, &ring(), out)));
        let (wide, narrow) = (to_edition2_vec(file), to_edition1_vec(file));
        assert_eq!(wide, borrowed(moved_len(file), |out| to_edition2(file, out)));
        assert_eq!(narrow, borrowed(moved_len(file), |out| to_edition1(file, out)));
        // `moved_len` gives the length that the move requires
        assert!([&wide, &narrow]
            .iter()
            .all(|moved| moved.as_ref().map_or_else(|refused| refused.number() != 6, |_| true)));
        if let Ok(draft) = unseal_vec(file, &ring()) {
            match Draft::check(&draft).and_then(|draft| draft.seal_vec(&ring())) {
                Ok(again) => assert_eq!(&again, file),
                Err(refused) => assert_eq!(refused.number(), 10),
            }
            done += 1;
        }
    }
    assert!(done > 20);
}

#[test]
fn jobs_reports_and_pairs() {
    let all = some_files();
    for (file, other) in all.iter().zip(all.iter().skip(1)) {
        let jobs = ShiftFile::check(file).map(|file| file.entries().map(|entry| entry.unverified_job).collect());
        let jobs: Vec<u32> = jobs.unwrap_or_default();
        for job in jobs.iter().copied().chain([1, 4102]) {
            let opened = ShiftFile::check(file).and_then(|file| file.open_job_vec(&ring(), job));
            let entry = ShiftFile::check(file).and_then(|file| file.unverified_entry(job));
            let length = entry.map_or(0, |entry| entry.text.len());
            let mut out = vec![0; length];
            let (number, _) = reference::shift::open_job(file, &samples::ring(), job, &mut out);
            assert_eq!(opened.as_ref().map_or_else(|refused| refused.number(), |_| 0), number);
            assert!(number != 0 || opened.clone().unwrap().1 == out);
            assert!(number != 0 || entry.unwrap().open_vec(&ring()) == opened);

            let current = open_amended_vec(file, other, &ring(), job);
            let expected = unverified_current(file, other, job);
            match current {
                Ok((holder, verified, message)) => {
                    let holds = if holder == Holder::Amendment { file } else { other };
                    assert_eq!(expected.unwrap().holder, holder);
                    let of_holder = ShiftFile::check(holds).unwrap().open_job_vec(&ring(), job);
                    assert_eq!(of_holder, Ok((verified, message)));
                }
                Err(refused) => assert!(refused.reason == Reason::TagDiffers || expected.unwrap_err() == refused),
            }
        }
        let mut lists = [[0; ROWS_MAX]; 3];
        let [a, b, c] = &mut lists;
        match (compare_vec(file, other), compare(file, other, a, b, c)) {
            (Ok(made), Ok(written)) => {
                assert_eq!(made.only_first, written.only_first);
                assert_eq!(made.only_second, written.only_second);
                assert_eq!(made.differ, written.differ);
            }
            (made, written) => assert_eq!(made.unwrap_err(), written.unwrap_err()),
        }
        let (mut jobs, mut numbers) = ([0; ROWS_MAX], [0; ROWS_MAX]);
        match (report_vec(file, &ring()), report(file, &ring(), &mut jobs, &mut numbers)) {
            (Ok(made), Ok(written)) => {
                assert!(made.iter().map(|entry| entry.0).eq(written.jobs.iter().copied()));
                assert!(made.iter().map(|entry| entry.1).eq(written.numbers.iter().copied()));
            }
            (made, written) => assert_eq!(made.unwrap_err(), written.unwrap_err()),
        }
    }
}

//! Each request of document 02 at its edge cases.

use reference::amendment::{amended, current, open_current};
use reference::comet::{double_120, encipher, open, open_counted, pad, seal, seal_counted, shuffle, specified, LIMIT};
use reference::data::{files, samples};
use reference::difference::{compare, printed, PROGRAM_LONGEST};
use reference::editions::{moved_length, to_edition1, to_edition2};
use reference::plan::{Entry, Plan};
use reference::report::{self, report, Reader};
use reference::reseal::reseal;
use reference::search::search;
use reference::session::{data, end, part, start, OVER};
use reference::shift::{check, lookup, open_job, rows};
use reference::writer::{seal_file, unseal_file};

mod w2 {
    use super::*;

    /// A block's ciphertext is output with the part that completes it, the rest at the end.
    #[test]
    fn counts() {
        let (mut out, mut tag) = ([0; 64], [0; 16]);
        let mut session = start(1, &[1; 16], &[2; 16]).next;
        let mut joined = vec![];
        for (length, count) in [(15, 0), (1, 16), (0, 0), (33, 32), (3, 0)] {
            let step = part(session, &vec![3; length], &mut out[..length + 15]);
            assert_eq!((step.number, step.count), (0, count));
            joined.extend(&out[..count]);
            session = step.next;
        }
        let step = end(session, &mut out[..16], &mut tag);
        assert_eq!((step.number, step.count, step.next), (0, 4, OVER));
        joined.extend(&out[..4]);
        let (mut whole, mut whole_tag) = ([0; 52], [0; 16]);
        assert_eq!(seal(1, &[1; 16], &[2; 16], &[], &[3; 52], &mut whole, &mut whole_tag), 0);
        assert_eq!((joined, tag), (whole.to_vec(), whole_tag));
    }

    #[test]
    fn a_refused_session_answers_9() {
        for (suite, key, nonce, status) in [(0, 15, 14, 1), (3, 15, 14, 2), (3, 16, 16, 3)] {
            let step = start(suite, &vec![0; key], &vec![0; nonce]);
            assert_eq!((step.number, step.next), (status, OVER));
            assert_eq!(data(step.next, &[0; 65_537]).number, 9);
            assert_eq!(part(step.next, &[0; 65_537], &mut []).number, 9);
            assert_eq!(end(step.next, &mut [], &mut []).number, 9);
        }
    }

    /// The order of the statuses in each call. A refusal leaves session and buffers unchanged.
    #[test]
    fn refusals() {
        let fresh = start(3, &[1; 16], &[2; 15]).next;
        let (mut out, mut tag) = ([7; 8], [7; 8]);
        let step = data(fresh, &[0; 65_537]);
        assert_eq!((step.number, step.next), (4, fresh));
        for (length, out_len, status) in [(65_537, 0, 5), (1, 7, 6), (0, 6, 6)] {
            let step = part(fresh, &vec![0; length], &mut out[..out_len]);
            assert_eq!((step.number, step.count, step.next, out), (status, 0, fresh, [7; 8]));
        }
        for (out_len, length, status) in [(7, 7, 6), (8, 7, 7)] {
            let step = end(fresh, &mut out[..out_len], &mut tag[..length]);
            assert_eq!((step.number, step.count, step.next, out, tag), (status, 0, fresh, [7; 8], [7; 8]));
        }
    }

    /// An empty part does not begin the message; one byte does. After that every part of associated data is 9, even an
    /// empty one.
    #[test]
    fn beginning_the_message() {
        let fresh = start(3, &[1; 16], &[2; 15]).next;
        let step = part(fresh, &[], &mut [0; 7]);
        assert_eq!((step.number, step.next), (0, fresh));
        assert_eq!(data(step.next, b"ad").number, 0);
        let begun = part(fresh, &[1], &mut [0; 8]).next;
        assert_eq!(data(begun, &[]).number, 9);
    }
}

mod w4 {
    use super::*;

    /// The empty draft, and the smallest one with a row.
    #[test]
    fn smallest() {
        let (draft, file) = ([0, 0, 0, 0, 8, 0, 0, 0], [1, 0, 0, 0, 8, 0, 0, 0]);
        let mut out = [7; 8];
        assert_eq!((seal_file(&draft, &samples::ring(), &mut out), out), ((0, 0), file));
        assert_eq!((unseal_file(&file, &samples::ring(), &mut out), out), ((0, 0), draft));
        assert_eq!(seal_file(&draft, &[0; 255], &mut []), (2, 0));
        let file = files::smallest();
        let mut draft = file.clone();
        draft[0] = 0;
        draft[45..].fill(0);
        let mut out = [7; 53];
        assert_eq!((seal_file(&draft, &samples::ring(), &mut out), &out[..]), ((0, 0), &file[..]));
        assert_eq!((unseal_file(&file, &samples::ring(), &mut out), &out[..]), ((0, 0), &draft[..]));
    }

    /// After 8 the output is zero, also that of earlier rows. 33 comes before 2 and 6, and these before 8.
    #[test]
    fn refusals() {
        let ring = samples::ring();
        let (draft, file) = (files::three_rows().draft(), files::three_rows().file(&ring));
        assert_eq!((check(&file), check(&draft)), ((0, 0), (21, 0)));
        let mut out = vec![7; file.len()];
        assert_eq!(seal_file(&file, &ring, &mut out), (21, 0));
        assert_eq!(unseal_file(&draft, &ring, &mut out), (21, 0));
        let tag = rows(&file)[1].tag();
        let (mut dirty, mut wrong) = (draft, file);
        dirty[tag.end - 1] = 1;
        wrong[tag.start] ^= 1;
        assert_eq!(seal_file(&dirty, &[], &mut []), (33, 1));
        assert_eq!(unseal_file(&wrong, &[], &mut out), (2, 0));
        assert_eq!(unseal_file(&wrong, &ring, &mut out[1..]), (6, 0));
        assert!(out.iter().all(|byte| *byte == 7));
        assert_eq!(unseal_file(&wrong, &ring, &mut out), (8, 1));
        assert!(out.iter().all(|byte| *byte == 0));
    }
}

mod w5 {
    use super::*;

    /// The result of the check of two rows, each given as suite, key number and sixteenth nonce byte; the other nonce bytes
    /// are equal.
    fn checked(rows: [(u8, u8, u8); 2]) -> (u32, u32) {
        let entry = |(job, (suite, key, last)): (usize, (u8, u8, u8))| {
            let mut entry = Entry::new(job as u32, suite, key, 1, [9; 16], b"");
            entry.nonce[15] = last;
            entry
        };
        check(&Plan::new(rows.into_iter().enumerate().map(entry).collect()).file(&samples::ring()))
    }

    #[test]
    fn the_auditors_file_and_its_neighbours() {
        assert_eq!(checked([(3, 0, 0), (3, 0, 1)]), (34, 1));
        assert_eq!(checked([(3, 0, 1), (3, 0, 0)]), (34, 0));
        assert_eq!(checked([(3, 0, 0), (3, 0, 0)]), (29, 1));
        assert_eq!(checked([(3, 0, 0), (3, 1, 0)]), (0, 0));
        assert_eq!(checked([(3, 0, 0), (4, 0, 0)]), (0, 0));
        assert_eq!(checked([(1, 0, 0), (1, 0, 1)]), (0, 0));
        assert_eq!(checked([(1, 0, 1), (1, 0, 1)]), (29, 1));
    }

    /// The check of a draft has the same rule.
    #[test]
    fn drafts_too() {
        let mut draft = files::three_rows().draft();
        draft[8 + 31] = 1;
        let mut out = vec![0; draft.len()];
        assert_eq!(seal_file(&draft, &samples::ring(), &mut out), (34, 0));
    }
}

mod w6 {
    use super::*;

    /// In four rows with jobs 10 i: which row the search reads first, and on which side it continues.
    #[test]
    fn halving() {
        let file = files::many_rows(4);
        let answers = [20, 30, 10, 0, 25, 35].map(|job| search(&file, job));
        let expected = [((0, 2), 1), ((0, 3), 2), ((0, 1), 2), ((0, 0), 3), ((32, 0), 2), ((32, 0), 2)];
        assert_eq!(answers, expected);
        assert_eq!(search(&files::many_rows(0), 0), ((32, 0), 0));
    }

    /// On good files the search returns what the lookup returns; it reads at most 10 rows of 512, and 9 of 511.
    #[test]
    fn as_the_lookup() {
        for (rows, most) in [(1, 1), (2, 2), (3, 2), (511, 9), (512, 10)] {
            let file = files::many_rows(rows);
            let jobs = || (0..10 * rows as u32 + 2).filter(|job| job % 10 < 2);
            assert_eq!(jobs().map(|job| search(&file, job).1).max(), Some(most));
            for job in jobs().step_by(37) {
                assert_eq!(search(&file, job).0, lookup(&file, job));
            }
        }
    }

    /// Rows that the check refuses, and a header that the search refuses.
    #[test]
    fn any_bytes() {
        let mut file = files::many_rows(4);
        file[8 + 4..40].fill(0xff);
        assert_eq!((check(&file).0, search(&file, 30)), (26, ((0, 3), 2)));
        file[0] = 3;
        assert_eq!(search(&file, 30), ((21, 0), 0));
        file[0] = 0;
        assert_eq!(search(&file, 30), ((21, 0), 0));
    }
}

mod w7 {
    use super::*;

    /// 10 comes just after 1 and writes nothing; the opener accepts suite 4.
    #[test]
    fn sealing_under_suite_4() {
        let (mut out, mut tag) = ([7; 9], [7; 8]);
        assert_eq!(seal(4, &[], &[], &[], &[0; 9], &mut out, &mut tag), 10);
        assert_eq!(seal(4, &[1; 16], &[2; 15], b"ad", &[3; 9], &mut out, &mut tag), 10);
        assert_eq!((out, tag), ([7; 9], [7; 8]));
        let (text, tag) = specified(4, &[1; 16], &[2; 15], b"ad", &[3; 9]);
        assert_eq!(open(4, &[1; 16], &[2; 15], b"ad", &text, &tag, &mut out), 0);
        assert_eq!(out, [3; 9]);
        assert_eq!(open(4, &[1; 15], &[2; 15], b"ad", &text, &tag, &mut out), 2);
    }

    /// A start under suite 4 returns 10 and a session that is over. A session value of suite 4 is over too.
    #[test]
    fn sessions() {
        let step = start(4, &[], &[]);
        assert_eq!((step.number, step.next), (10, OVER));
        let built = reference::session::Session { suite: 4, ..start(3, &[1; 16], &[2; 15]).next };
        assert_eq!(data(built, b"ad").number, 9);
        assert_eq!(part(built, b"message", &mut [0; 20]).number, 9);
        assert_eq!(end(built, &mut [0; 8], &mut [0; 8]).number, 9);
    }

    /// In `three_rows`, row 2 has suite 4.
    #[test]
    fn a_draft() {
        let (ring, mut draft) = (samples::ring(), files::three_rows().draft());
        let mut out = vec![7; draft.len()];
        assert_eq!(seal_file(&draft, &[], &mut out), (10, 2));
        assert!(out.iter().all(|byte| *byte == 7));
        *draft.last_mut().unwrap() = 1;
        assert_eq!(seal_file(&draft, &ring, &mut out), (33, 2));
    }

    /// Only the entry of suite 4 changes: its suite, its text and its tag, but not its message.
    #[test]
    fn resealing() {
        let (ring, file) = (samples::ring(), files::three_rows().file(&samples::ring()));
        let mut out = vec![7; file.len()];
        assert_eq!(reseal(&file, &ring, &mut out), (0, 0));
        let row = rows(&file)[2];
        let mut kept = out.clone();
        kept[8 + 2 * 32 + 4] = 4;
        kept[row.text().start..].copy_from_slice(&file[row.text().start..]);
        assert!(kept == file && check(&out) == (0, 0));
        let mut message = [0; 11];
        assert_eq!((open_job(&out, &ring, 30, &mut message), &message), ((0, 0), b"thirty jobs"));
        let mut again = vec![7; file.len()];
        assert_eq!(reseal(&out, &ring, &mut again), (0, 0));
        assert_eq!(again, out);
    }

    #[test]
    fn refusals() {
        let (ring, mut file) = (samples::ring(), files::three_rows().file(&samples::ring()));
        let mut out = vec![7; file.len()];
        *file.last_mut().unwrap() ^= 1;
        let elsewhere = rows(&file)[1].tag().start;
        file[elsewhere] ^= 1;
        assert_eq!(reseal(&file, &[], &mut []), (2, 0));
        assert_eq!(reseal(&file, &ring, &mut []), (6, 0));
        assert_eq!(reseal(&file, &ring, &mut out), (8, 2));
        assert!(out.iter().all(|byte| *byte == 0));
        let clash = [(10, 3), (20, 1), (30, 4)].map(|(job, suite)| Entry::new(job, suite, 0, 1, [9; 16], b""));
        assert_eq!(reseal(&Plan::new(clash.to_vec()).file(&ring), &[], &mut []), (29, 2));
    }
}

mod w8 {
    use super::*;

    fn of_jobs(jobs: &[u32]) -> Vec<u8> {
        let entry = |job: &u32| Entry::new(*job, 3, 0, 1, [*job as u8; 16], b"message");
        Plan::new(jobs.iter().map(entry).collect()).file(&samples::ring())
    }

    /// Elements after a count are unchanged. If a list is too short, the status is 36 and nothing is written.
    #[test]
    fn lists() {
        let (first, second) = (of_jobs(&[1, 2, 3, 5]), of_jobs(&[2, 3, 4]));
        let (mut one, mut other, mut both) = ([9; 3], [9; 1], [9; 0]);
        let answer = compare(&first, &second, [&mut one, &mut other, &mut both]);
        assert_eq!((answer.number, answer.counts, one, other), (0, [2, 1, 0], [1, 5, 9], [4]));
        let mut short = [9; 1];
        let answer = compare(&first, &second, [&mut short, &mut other, &mut both]);
        assert_eq!((answer.number, answer.file, answer.counts, short), (36, 0, [0; 3], [9]));
    }

    /// Entries at other offsets are equal; entries that differ in one bit of the tag are not.
    #[test]
    fn offsets_do_not_count() {
        let (first, mut second) = (of_jobs(&[1, 2, 3]), of_jobs(&[2, 3]));
        assert_eq!(printed(&first, &second), "first\n1\nsecond\ndiffer\n");
        *second.last_mut().unwrap() ^= 1;
        assert_eq!(printed(&first, &second), "first\n1\nsecond\ndiffer\n3\n");
    }

    #[test]
    fn the_program() {
        let (good, empty) = (of_jobs(&[7]), of_jobs(&[]));
        assert_eq!(printed(&empty, &empty), "first\nsecond\ndiffer\n");
        assert_eq!(printed(&[], &good), "refused 1 20 0\n");
        assert_eq!(printed(&good, &[]), "refused 2 20 0\n");
        let mut faulty = of_jobs(&[7, 8]);
        faulty[8 + 32 + 4] = 9;
        assert_eq!(printed(&good, &faulty), "refused 2 26 1\n");
        assert_eq!(printed(&faulty, &[]), "refused 1 26 1\n");
        assert_eq!(printed(&faulty, &vec![0; PROGRAM_LONGEST + 1]), "refused 1 26 1\n");
        assert_eq!(printed(&good, &vec![0; PROGRAM_LONGEST + 1]), "refused 2 20 0\n");
    }

    /// The program accepts 65,280 bytes, and one more is 20; the library has the limit of the format.
    #[test]
    fn the_programs_limit() {
        let of_length = |length: usize| {
            let message = vec![0; length - 8 - 32 - 5 - 8];
            Plan::new(vec![Entry::new(7, 3, 0, 1, [0; 16], &message)]).file(&samples::ring())
        };
        let (longest, longer) = (of_length(PROGRAM_LONGEST), of_length(PROGRAM_LONGEST + 1));
        assert_eq!(printed(&longest, &longest), "first\nsecond\ndiffer\n");
        assert_eq!(printed(&longer, &longest), "refused 1 20 0\n");
        assert_eq!(compare(&longer, &longer, [&mut [], &mut [], &mut []]).number, 0);
    }
}

mod w9 {
    use super::*;

    #[test]
    fn doubling() {
        let top = 1 << 119;
        assert_eq!([0, 1, top, top | 1, top >> 1].map(double_120), [0, 2, 0x245, 0x247, top]);
        let ones = (1 << 120) - 1;
        assert_eq!(double_120(ones), (ones - 1) ^ 0x245);
    }

    /// A block as the paper writes it: an integer whose least significant byte is byte 0.
    fn number(bytes: &[u8]) -> u128 {
        bytes.iter().rev().fold(0, |number, byte| number << 8 | *byte as u128)
    }

    /// The control sequence of algorithm 7.1, left (version 1) and right (version 2); an element has five bits.
    fn control(version: usize, a: usize, m: usize, is_short: [bool; 2]) -> Vec<u128> {
        let length = a + m;
        let mut delta = vec![0; length + 2];
        let later = version - 1;
        if a != 0 {
            delta[later] ^= 0b00001;
            if is_short[0] {
                delta[a - 1 + later] ^= 0b00010;
            }
        }
        if m != 0 {
            delta[a + later] ^= 0b00100;
            if is_short[1] {
                delta[length - 1 + later] ^= 0b01000;
            }
        }
        delta[length + 1] ^= 0b10000;
        delta
    }

    /// U of the paper: keeps a prefix of the key (half of it, or one byte) and doubles the rest.
    fn update(version: usize, z: u128) -> u128 {
        let (bits, polynomial) = if version == 1 { (64, 0x1b) } else { (120, 0x245) };
        let low = z & ((1 << bits) - 1);
        let doubled = (low << 1) & ((1 << bits) - 1) ^ if low >> (bits - 1) == 1 { polynomial } else { 0 };
        z ^ low ^ doubled
    }

    fn shuffled(x: &[u8]) -> Vec<u8> {
        match x.try_into() {
            Ok(block) => shuffle::<16>(block).to_vec(),
            Err(_) => shuffle::<8>(x.try_into().unwrap()).to_vec(),
        }
    }

    fn padded(size: usize, piece: &[u8]) -> Vec<u8> {
        if size == 16 {
            pad::<16>(piece).to_vec()
        } else {
            pad::<8>(piece).to_vec()
        }
    }

    /// gCOMET as section 3.2 of source 004 defines it, with the whole control sequence computed first. The cipher call of a
    /// block uses Z_i, the updated key.
    fn gcomet(suite: u8, version: usize, nonce: &[u8], ad: &[u8], msg: &[u8]) -> (Vec<u8>, Vec<u8>) {
        let key: [u8; 16] = [0x3c; 16];
        let size = if [1, 2, 5].contains(&suite) { 16 } else { 8 };
        let call = |z: u128, y: u128| number(&encipher(suite, &z.to_le_bytes(), &y.to_le_bytes()[..size]));
        let (a, m) = (ad.len().div_ceil(size), msg.len().div_ceil(size));
        let delta = control(version, a, m, [ad, msg].map(|text| text.len() % size != 0));
        let (mut y, mut z) = if size == 16 {
            (number(&key), call(number(&key), number(nonce)))
        } else {
            (call(number(&key), 0), number(&key) ^ number(nonce))
        };
        z ^= delta[0] << 123;
        let mut text = vec![];
        for (i, piece) in ad.chunks(size).chain(msg.chunks(size)).enumerate() {
            z = update(version, z);
            let x = call(z, y);
            y = x ^ number(&padded(size, piece));
            z ^= delta[i + 1] << 123;
            if i >= a {
                let stream = shuffled(&x.to_le_bytes()[..size]);
                text.extend(piece.iter().zip(stream).map(|(byte, other)| byte ^ other));
            }
        }
        z = update(version, z ^ delta[a + m + 1] << 123);
        (text, call(z, y).to_le_bytes()[..size].to_vec())
    }

    /// Both versions equal the paper's definition at every pair of lengths up to three blocks and a byte.
    #[test]
    fn as_the_paper_has_it() {
        let bytes: Vec<u8> = (0..64u32).map(|i| (7 * i + 1) as u8).collect();
        for (suite, version, nonce) in [(1, 1, 16), (3, 1, 15), (5, 2, 16), (6, 2, 15), (2, 1, 16), (4, 1, 15)] {
            let nonce = &bytes[10..10 + nonce];
            for (a, m) in (0..50).flat_map(|a| (0..50).map(move |m| (a, m))) {
                let (ad, msg) = (&bytes[..a], &bytes[5..5 + m]);
                assert_eq!(gcomet(suite, version, nonce, ad, msg), specified(suite, &[0x3c; 16], nonce, ad, msg));
            }
        }
    }

    /// Suites 5 and 6 are sealed, opened and checked like the others; there is no suite 7.
    #[test]
    fn numbers() {
        for (suite, nonce, block) in [(5, 16, 16), (6, 15, 8)] {
            let (mut out, mut tag, mut back) = ([0; 21], vec![0; block], [0; 21]);
            assert_eq!(seal(suite, &[1; 16], &vec![2; nonce], b"ad", &[3; 21], &mut out, &mut tag), 0);
            assert_eq!(open(suite, &[1; 16], &vec![2; nonce], b"ad", &out, &tag, &mut back), 0);
            assert_eq!(back, [3; 21]);
            tag[block - 1] ^= 0x80;
            assert_eq!(open(suite, &[1; 16], &vec![2; nonce], b"ad", &out, &tag, &mut back), 8);
            assert_eq!(seal(suite, &[1; 16], &[2; 14], b"ad", &[3; 21], &mut out, &mut tag), 3);
            assert_eq!(seal(suite, &[1; 16], &vec![2; nonce], &[0; LIMIT + 1], &[], &mut [], &mut tag), 4);
        }
        assert_eq!(seal(7, &[], &[], &[], &[], &mut [], &mut []), 1);
        let entries = [5, 6].map(|suite| Entry::new(suite as u32, suite, 0, 1, [9; 16], b"version 2"));
        let mut file = Plan::new(entries.to_vec()).file(&samples::ring());
        let mut message = [0; 9];
        assert_eq!((open_job(&file, &samples::ring(), 6, &mut message), &message), ((0, 0), b"version 2"));
        file[8 + 32 + 31] = 1;
        assert_eq!(check(&file), (34, 1));
        file[8 + 32 + 4] = 7;
        assert_eq!(check(&file), (26, 1));
    }
}

mod w10 {
    use super::*;

    /// The smallest file with a row, in edition 2: four bytes longer, its body four bytes later, its tag the same.
    #[test]
    fn the_smallest_file() {
        let file = files::smallest();
        let mut out = [7; 57];
        assert_eq!(to_edition2(&file, &mut out), (0, 0));
        assert_eq!(out[..8], [2, 0, 1, 0, 57, 0, 0, 0]);
        assert_eq!(out[8..28], [7, 0, 0, 0, 0, 0, 0, 0, 3, 0, 5, 0, 44, 0, 0, 0, 0, 0, 0, 0]);
        assert_eq!((&out[28..44], &out[44..]), (&[0; 16][..], &file[40..]));
        assert_eq!((check(&out), open_job(&out, &samples::ring(), 7, &mut [])), ((0, 0), (0, 0)));
        let mut back = [7; 53];
        assert_eq!((to_edition1(&out, &mut back), &back[..]), ((0, 0), &file[..]));
        assert_eq!([&file[..], &out, &out[..8]].map(moved_length), [57, 53, 0]);
        out[12] = 1;
        assert_eq!((check(&out), to_edition1(&out, &mut []), to_edition1(&file, &mut [])), ((0, 0), (35, 0), (21, 0)));
        assert_eq!((to_edition2(&out, &mut back), to_edition2(&file, &mut back)), ((21, 0), (6, 0)));
        assert_eq!(back, file[..]);
    }

    /// The functions return the same for both editions of a file.
    #[test]
    fn the_same_answers() {
        let [one, two] = [1, 2].map(|edition| files::three_rows().in_edition(edition).file(&samples::ring()));
        for job in [10, 20, 30, 5, 25] {
            assert_eq!((lookup(&one, job), search(&one, job)), (lookup(&two, job), search(&two, job)));
            let (mut message, mut other) = ([0; 11], [0; 11]);
            let opened = open_job(&one, &samples::ring(), job, &mut message);
            assert_eq!((opened, message), (open_job(&two, &samples::ring(), job, &mut other), other));
        }
        assert_eq!(printed(&one, &two), "first\nsecond\ndiffer\n20\n30\n");
    }

    /// The writer and resealing accept edition 1 only.
    #[test]
    fn earlier_tools() {
        let ring = samples::ring();
        let file = files::three_rows().in_edition(2).file(&ring);
        assert_eq!(unseal_file(&file, &ring, &mut []), (21, 0));
        assert_eq!(reseal(&file, &ring, &mut []), (21, 0));
        assert_eq!(seal_file(&file, &ring, &mut []), (21, 0));
    }

    /// Editions other than 1 and 2 are 21, before any row is checked.
    #[test]
    fn other_editions() {
        for edition in [[0, 0], [3, 0], [1, 1], [2, 1], [0, 2]] {
            assert_eq!(check(&[edition[0], edition[1], 0, 0, 8, 0, 0, 0]), (21, 0));
        }
        assert_eq!(check(&[2, 0, 0, 0, 8, 0, 0, 0]), (0, 0));
    }
}

mod w11 {
    use super::*;

    /// `current` is a slice of the file that contains the current entry.
    #[test]
    fn whose_entry() {
        let (amendment, day) = (samples::amendment(), samples::day());
        for (job, file, row) in [(4101, 2, 0), (4102, 1, 0), (4110, 1, 1), (4220, 1, 2), (4211, 2, 7)] {
            let answer = amended(&amendment, &day, job);
            assert_eq!((answer.number, answer.file, answer.row), (0, file, row));
            let source = if file == 1 { &amendment } else { &day };
            let part = current(&amendment, &day, job);
            assert_eq!(part.as_ptr(), source[answer.at..].as_ptr());
            assert_eq!(part, reference::shift::associated(source, job));
        }
        let answer = amended(&amendment, &day, 4103 + 1);
        assert_eq!((answer.number, answer.file, answer.row, answer.at, answer.length), (32, 0, 0, 0, 0));
        let mut message = [0; 41];
        assert_eq!(open_current(&amendment, &day, &samples::ring(), 4220, &mut message), (0, 1, 0));
        assert!(message.starts_with(b"gearbox 4220"));
    }

    /// The day's file is checked even if the amendment has the job. On a refusal `current` is an empty slice of the
    /// amendment.
    #[test]
    fn refusals() {
        let (mut amendment, mut day) = (samples::amendment(), samples::day());
        day[8 + 32 + 4] = 9;
        let answer = amended(&amendment, &day, 4102);
        assert_eq!((answer.number, answer.file, answer.row), (26, 2, 1));
        let part = current(&amendment, &day, 4102);
        assert_eq!((part.as_ptr(), part.len()), (amendment.as_ptr(), 0));
        assert_eq!(open_current(&amendment, &day, &[], 4102, &mut []), (26, 2, 1));
        amendment[0] = 3;
        assert_eq!((amended(&amendment, &day, 4102).number, amended(&amendment, &day, 4102).file), (21, 1));
    }
}

mod w12 {
    use super::*;

    /// The examples of source 000, section 3.2; for an empty message the fourth one is 2.
    #[test]
    fn examples() {
        for (suite, n) in [(1, 16), (2, 16), (3, 8), (5, 16), (6, 8)] {
            let nonce = vec![2; if n == 16 { 16 } else { 15 }];
            let examples: [(usize, usize, u64); 8] = [
                (0, 0, 2),
                (1, 0, 3),
                (4 * n, 0, 6),
                (0, n, 3),
                (0, 3 * n + 1, 6),
                (n, 1, 4),
                (4 * n, 3 * n + 1, 10),
                (0, 4 * n, 6),
            ];
            for (a, m, calls) in examples {
                let (mut out, mut tag) = (vec![0; m], vec![0; n]);
                let sealed = seal_counted(suite, &[1; 16], &nonce, &vec![3; a], &vec![4; m], &mut out, &mut tag);
                assert_eq!(sealed, (0, calls));
                let mut back = vec![0; m];
                assert_eq!(open_counted(suite, &[1; 16], &nonce, &vec![3; a], &out, &tag, &mut back), (0, calls));
                tag[0] ^= 1;
                assert_eq!(open_counted(suite, &[1; 16], &nonce, &vec![3; a], &out, &tag, &mut back), (8, calls));
            }
        }
    }

    /// A refusal before the text is processed has count 0. Suite 4 is opened but not sealed.
    #[test]
    fn refusals() {
        let mut tag = [0; 8];
        for (suite, key, status) in [(0, 16, 1), (4, 16, 10), (3, 15, 2)] {
            assert_eq!(seal_counted(suite, &vec![0; key], &[0; 15], &[], &[], &mut [], &mut tag), (status, 0));
        }
        assert_eq!(seal_counted(3, &[0; 16], &[0; 15], &[], &[], &mut [], &mut [0; 7]), (7, 0));
        let (text, tag) = specified(4, &[1; 16], &[2; 15], b"ad", b"nine bytes");
        assert_eq!(open_counted(4, &[1; 16], &[2; 15], b"ad", &text, &tag, &mut [0; 10]), (0, 5));
        assert_eq!(open_counted(4, &[1; 16], &[2; 15], b"ad", &text, &tag, &mut [0; 9]), (6, 0));
    }
}

mod w14 {
    use super::*;

    /// The reader returns the rows in order, each once, and then None at every call.
    #[test]
    fn reader() {
        let file = files::three_rows().in_edition(2).file(&samples::ring());
        let mut reader = Reader::new(&file);
        for (i, job, station) in [(0, 10, 0), (1, 20, 300), (2, 30, 0xff00_0000)] {
            let (at, row) = reader.entry().unwrap();
            assert_eq!((at, row.job, row.station), (i, job, station));
        }
        assert!((0..5).all(|_| reader.entry().is_none()));
        let mut faulty = Reader::new(&file[1..]);
        assert!((0..5).all(|_| faulty.entry().is_none()));
    }

    #[test]
    fn the_program() {
        let (ring, mut file) = (samples::ring(), files::three_rows().file(&samples::ring()));
        assert_eq!(report::printed(&[1, 0, 0, 0, 8, 0, 0, 0], &ring), "entries 0\n");
        assert_eq!(report::printed(&files::smallest(), &ring), "entries 1\n7 0\n");
        assert_eq!(report::printed(&[], &[]), "refused 20 0\n");
        assert_eq!(report::printed(&vec![0; 65_281], &ring), "refused 20 0\n");
        for length in [0, 255, 257] {
            assert_eq!(report::printed(&file, &vec![0; length]), "refused 2 0\n");
        }
        let second = rows(&file)[1];
        file[second.tag().start] ^= 1;
        assert_eq!(report::printed(&file, &ring), "entries 3\n10 0\n20 8\n30 0\n");
        file[8 + 32 + 4] = 0;
        assert_eq!(report::printed(&file, &[]), "refused 26 1\n");
    }

    /// The report on a file of the writer has 0 for every entry.
    #[test]
    fn the_writers_files() {
        let (draft, ring) = (samples::draft(), samples::ring());
        let mut file = vec![0; draft.len()];
        assert_eq!(seal_file(&draft, &ring, &mut file), (0, 0));
        let (mut jobs, mut numbers) = ([1; 9], [1; 9]);
        let answer = report(&file, &ring, &mut jobs, &mut numbers);
        assert_eq!((answer.number, answer.count, numbers), (0, 7, [0, 0, 0, 0, 0, 0, 0, 1, 1]));
        assert_eq!((jobs[0], jobs[6], jobs[7]), (4101, 4211, 1));
        assert_eq!(report(&file, &ring, &mut jobs[..6], &mut numbers).number, 6);
    }
}

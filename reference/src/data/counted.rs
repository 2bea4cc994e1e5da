//! Cases for `test_comet`: the number of cipher calls.

use super::cases;
use crate::calls::{Call, Case, CountedCall, REFERENCE};
use crate::comet::{block_size, fitting_tag, is_retired, LIMIT, SUITES};
use crate::random::Random;

/// The call, after a check that it returns the expected status and count.
fn expected(call: Call, status: u32, calls: u64) -> CountedCall {
    let call = CountedCall(call);
    let (got, outcome) = call.answer(&REFERENCE);
    assert_eq!((outcome.number, got), (status, calls));
    call
}

/// a + m + 2, for associated data of a blocks and a text of m blocks.
fn sum(suite: u8, ad: usize, text: usize) -> u64 {
    let block = block_size(suite);
    (ad.div_ceil(block) + text.div_ceil(block) + 2) as u64
}

/// A record sealed (a retired suite refuses it), opened, and opened with a wrong tag.
fn three_ways(random: &mut Random, suite: u8, ad: usize, text: usize) -> [CountedCall; 3] {
    let sealing = cases::sealing(random, suite, ad, text);
    let opening = sealing.reopened();
    let mut wrong = opening.clone();
    let index = random.below(block_size(suite));
    wrong.tag[index] ^= 1 << random.below(8);
    let calls = sum(suite, ad, text);
    let sealed = if is_retired(suite) { (10, 0) } else { (0, calls) };
    [expected(sealing, sealed.0, sealed.1), expected(opening, 0, calls), expected(wrong, 8, calls)]
}

/// The seven examples of source 000, section 3.2, at the least and the greatest length of each. The fourth says 3 for a
/// message of at most one block; for an empty message it is 2.
fn examples(random: &mut Random) -> Vec<CountedCall> {
    let mut calls = vec![];
    for suite in SUITES {
        let n = block_size(suite);
        let (one, four) = ([1, n], [3 * n + 1, 4 * n]);
        let pairs = [0, 1].map(|end| {
            [
                (0, 0),
                (one[end], 0),
                (four[end], 0),
                (0, one[end]),
                (0, four[end]),
                (one[end], one[end]),
                (four[end], four[end]),
            ]
        });
        for (i, (ad, text)) in pairs.into_iter().flatten().enumerate() {
            assert_eq!(sum(suite, ad, text), [2, 3, 6, 3, 6, 4, 10][i % 7]);
            calls.extend(three_ways(random, suite, ad, text));
        }
    }
    calls
}

/// Lengths around block boundaries.
fn lengths(random: &mut Random) -> Vec<CountedCall> {
    let mut calls = vec![];
    for suite in SUITES {
        let n = block_size(suite);
        let all = [0, 1, n - 1, n, n + 1, 2 * n + 3];
        for (ad, text) in all.iter().flat_map(|ad| all.map(|text| (*ad, text))) {
            calls.extend(three_ways(random, suite, ad, text));
        }
    }
    calls
}

/// Every refusal that comes before the text is processed: the count is 0.
fn refused(random: &mut Random) -> Vec<CountedCall> {
    let refused = |call: &Call| !call.opens || call.answer(&REFERENCE).number != 8;
    let calls = cases::refused(random).into_iter().chain(cases::retired(random));
    let calls = calls.filter(|call| refused(call) && call.text.len() < 100);
    calls.map(|call| expected(call.clone(), call.answer(&REFERENCE).number, 0)).collect()
}

/// The longest text, and one byte more.
fn longest(random: &mut Random) -> Vec<CountedCall> {
    let mut opening = cases::sealing(random, 6, 9, 0);
    (opening.opens, opening.text, opening.out) = (true, vec![0; LIMIT], LIMIT);
    opening.tag = fitting_tag(6, &opening.key, &opening.nonce, &opening.ad, &opening.text);
    let mut sealing = cases::sealing(random, 1, 0, 3);
    sealing.ad = vec![0; LIMIT];
    let over = Call { ad: vec![0; LIMIT + 1], ..sealing.clone() };
    vec![expected(opening, 0, 8192 + 4), expected(sealing, 0, 4096 + 3), expected(over, 4, 0)]
}

/// All calls of the test data.
pub fn calls() -> Vec<CountedCall> {
    let mut random = Random::new(17);
    let groups = [examples, lengths, refused, longest];
    groups.into_iter().flat_map(|group| group(&mut random)).collect()
}

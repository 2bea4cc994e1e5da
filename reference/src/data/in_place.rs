//! Cases for `test_comet`: records sealed and opened in place, and verified.

use super::cases;
use crate::calls::{Call, Case, Deed, InPlaceCall, REFERENCE};
use crate::comet::{block_size, fitting_tag, is_retired, LIMIT, SUITES};
use crate::random::Random;

/// The call, after a check that it returns the expected status and leaves the right text and tag. Both are unchanged after a
/// refusal and after verifying; the text is zero after 8 of opening; otherwise both are what `seal` and `open` output.
fn expected(deed: Deed, call: Call, status: u32) -> InPlaceCall {
    let before = call.clone();
    let case = InPlaceCall { deed, call };
    let outcome = case.answer(&REFERENCE);
    assert_eq!(outcome.number, status);
    let (text, tag) = match (deed, status) {
        (Deed::Seal | Deed::Open, 0) => {
            let apart = Call { out: before.text.len(), ..before }.answer(&REFERENCE);
            (apart.out, apart.tag)
        }
        (Deed::Open, 8) => (vec![0; before.text.len()], before.tag),
        _ => (before.text, before.tag),
    };
    assert_eq!((outcome.out, outcome.tag), (text, tag));
    case
}

/// The call with one random bit of one argument inverted.
fn damaged(random: &mut Random, call: &Call, part: fn(&mut Call) -> &mut Vec<u8>) -> Call {
    let mut call = call.clone();
    let bytes = part(&mut call);
    let index = random.below(bytes.len());
    bytes[index] ^= 1 << random.below(8);
    call
}

/// Lengths around block boundaries: sealed (a retired suite refuses), opened and verified; good, with one bit of the tag
/// inverted, and with one bit of a nonempty text inverted.
fn lengths(random: &mut Random) -> Vec<InPlaceCall> {
    let mut calls = vec![];
    for suite in SUITES {
        let n = block_size(suite);
        for (ad, text) in [0, 1, n - 1, n, n + 1, 2 * n + 3].into_iter().flat_map(|text| [(0, text), (n + 1, text)]) {
            let sealing = cases::sealing(random, suite, ad, text);
            let opening = sealing.reopened();
            calls.push(expected(Deed::Seal, sealing, if is_retired(suite) { 10 } else { 0 }));
            for deed in [Deed::Open, Deed::Verify] {
                calls.push(expected(deed, opening.clone(), 0));
                calls.push(expected(deed, damaged(random, &opening, |call| &mut call.tag), 8));
                if text > 0 {
                    calls.push(expected(deed, damaged(random, &opening, |call| &mut call.text), 8));
                }
            }
        }
    }
    calls
}

/// A wrong tag in each of its bytes: an opener that compares only some of them accepts one of these.
fn wrong_tags(random: &mut Random) -> Vec<InPlaceCall> {
    let mut calls = vec![];
    for suite in SUITES {
        let opening = cases::sealing(random, suite, 5, 2 * block_size(suite) + 1).reopened();
        for (index, deed) in (0..opening.tag.len()).flat_map(|index| [(index, Deed::Open), (index, Deed::Verify)]) {
            let mut call = opening.clone();
            call.tag[index] ^= 1 << random.below(8);
            calls.push(expected(deed, call, 8));
        }
    }
    calls
}

/// The statuses in their order, except those of a long input; 6 cannot occur in place.
fn faults(deed: Deed) -> [u32; 5] {
    if deed == Deed::Seal {
        [1, 10, 2, 3, 7]
    } else {
        [1, 2, 3, 7, 8]
    }
}

/// Each status alone, and together with each later one.
fn refused(random: &mut Random) -> Vec<InPlaceCall> {
    let mut calls = vec![];
    for (suite, deed) in SUITES.into_iter().flat_map(|s| [Deed::Seal, Deed::Open, Deed::Verify].map(|deed| (s, deed))) {
        let faults = faults(deed);
        for (first, later) in (0..5).flat_map(|first| (first..5).map(move |later| (faults[first], faults[later]))) {
            let sealing = cases::sealing(random, suite, 5, 11);
            let mut call = if deed == Deed::Seal { sealing } else { sealing.reopened() };
            let kind = random.below(7);
            cases::fault(&mut call, later, kind);
            if first != later {
                cases::fault(&mut call, first, kind);
            }
            let status = if deed == Deed::Seal && is_retired(suite) && first != 1 { 10 } else { first };
            calls.push(expected(deed, call, status));
        }
    }
    calls
}

/// The longest text, and one byte more, also together with a wrong tag length.
fn longest(random: &mut Random) -> Vec<InPlaceCall> {
    let mut of = |deed: Deed, suite: u8, length: usize| {
        let mut call = cases::sealing(random, suite, 9, 0);
        (call.opens, call.text) = (deed != Deed::Seal, vec![0; length]);
        if call.opens {
            call.tag = fitting_tag(suite, &call.key, &call.nonce, &call.ad, &call.text);
        }
        call
    };
    let mut over = of(Deed::Open, 1, LIMIT + 1);
    over.tag.pop();
    vec![
        expected(Deed::Seal, of(Deed::Seal, 1, LIMIT), 0),
        expected(Deed::Open, of(Deed::Open, 2, LIMIT), 0),
        expected(Deed::Verify, of(Deed::Verify, 6, LIMIT), 0),
        expected(Deed::Seal, of(Deed::Seal, 3, LIMIT + 1), 5),
        expected(Deed::Open, over.clone(), 5),
        expected(Deed::Verify, Call { ad: over.text, text: over.ad, ..over }, 4),
    ]
}

/// All calls of the test data.
pub fn calls() -> Vec<InPlaceCall> {
    let mut random = Random::new(31);
    let groups = [lengths, wrong_tags, refused, longest];
    groups.into_iter().flat_map(|group| group(&mut random)).collect()
}

//! Nonces: none repeats, across restarts too, and what is sealed with them the reference implementation opens.

use reference::comet;
use reference::random::Random;
use snoekeldraf::{seal, Key, Nonce, NonceCounter, Record, Suite};
use std::collections::BTreeSet;

fn prefix(suite: Suite) -> Vec<u8> {
    vec![9; suite.nonce_size() - 8]
}

/// A nonce is its prefix and its count, and the count rises by one.
#[test]
fn prefix_and_count() {
    for suite in Suite::ALL {
        for start in [0, 1, 254, 255, 256, 65_535, u32::MAX as u64, u64::MAX / 2, u64::MAX - 1_000] {
            let state = |count: u64| [prefix(suite), count.to_le_bytes().to_vec()].concat();
            let mut counter = NonceCounter::resume(&state(start)).unwrap();
            for count in start..start + 600 {
                assert_eq!((counter.state(), counter.remaining()), (&state(count)[..], u64::MAX - count));
                assert_eq!(counter.take().unwrap().as_bytes(), state(count));
            }
        }
        let new = NonceCounter::new(&prefix(suite)).unwrap();
        assert_eq!(new.state(), [prefix(suite), vec![0; 8]].concat());
    }
}

/// The counter ends: as often as it is called, it gives no nonce, and its stored state stays at its end.
#[test]
fn the_end() {
    let mut counter = NonceCounter::resume(&[&[9; 7][..], &(u64::MAX - 3).to_le_bytes()].concat()).unwrap();
    assert_eq!((0..10).filter_map(|_| counter.take()).count(), 3);
    let ended = counter.state().to_vec();
    assert!(counter.take_stored(|_| Err::<(), _>("nothing is stored")).unwrap().is_none());
    assert_eq!((counter.state(), counter.remaining()), (&ended[..], 0));
    assert!(NonceCounter::resume(&ended).unwrap().take().is_none());
}

#[test]
fn lengths() {
    for len in 0..40 {
        let bytes = vec![1; len];
        assert_eq!(NonceCounter::new(&bytes).is_ok(), matches!(len, 7 | 8));
        assert_eq!(NonceCounter::resume(&bytes).is_ok(), matches!(len, 15 | 16));
        assert_eq!(Nonce::assume_fresh(&bytes).is_ok(), matches!(len, 15 | 16));
        if let Err(refused) = Nonce::assume_fresh(&bytes) {
            assert_eq!(refused.number(), 3);
        }
    }
}

/// A server that stores before it uses, whose store fails now and then and which crashes at any moment: no nonce twice.
#[test]
fn crashes() {
    let mut random = Random::new(171);
    for suite in Suite::ALL {
        let (mut used, mut disk) = (BTreeSet::new(), NonceCounter::new(&prefix(suite)).unwrap().state().to_vec());
        for _ in 0..500 {
            let mut counter = NonceCounter::resume(&disk).unwrap();
            for _ in 0..random.below(20) {
                let fails = random.below(4) == 0;
                let taken = counter.take_stored(|state| {
                    if fails {
                        return Err("the disk is full");
                    }
                    disk = state.to_vec();
                    Ok(())
                });
                assert_eq!(taken.is_err(), fails);
                if let Ok(Some(nonce)) = taken {
                    assert!(used.insert(nonce.as_bytes().to_vec()), "a nonce twice");
                }
            }
        }
        assert!(used.len() > 1_000);
    }
}

/// Records sealed with a counter's nonces are the reference's for the same bytes.
#[test]
fn sealed_with_a_counter() {
    let mut random = Random::new(172);
    for suite in Suite::ALL.into_iter().filter(|suite| !suite.is_retired()) {
        let mut counter = NonceCounter::new(&prefix(suite)).unwrap();
        let key: [u8; 16] = random.array();
        for length in 0..200 {
            let (ad, msg) = (random.bytes(length / 3), random.bytes(length));
            let nonce = counter.take().unwrap();
            let sent = nonce.as_bytes().to_vec();
            let mut text = vec![0; length];
            let tag = seal(suite, &Key::from(key), nonce, Record { ad: &ad, text: &msg }, &mut text).unwrap();
            let expected = comet::specified(suite.number(), &key, &sent, &ad, &msg);
            assert_eq!((text, tag.as_bytes().to_vec()), expected);
        }
    }
}

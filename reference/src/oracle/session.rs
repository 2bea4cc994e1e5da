//! Sealing while measuring (document 02, W2): start, associated data in parts, message in parts, end.

use super::comet::{
    block_size, by_suite, first, is_retired, nonce_size, version_of, Cipher, State, Text, LIMIT, SEALED,
};

/// A session: Y (in the first bytes of `y`) and Z, the bytes that do not yet fill a block, and how many bytes of associated
/// data and of message were passed so far. The message has begun once `text_total` is not 0.
#[derive(Clone, Copy, PartialEq, Debug)]
pub struct Session {
    pub suite: u8,
    pub y: [u8; 16],
    pub z: [u8; 16],
    pub held: [u8; 16],
    pub ad_total: usize,
    pub text_total: usize,
}

/// A session that was refused or has ended: every call returns 9.
pub const OVER: Session = Session { suite: 0, y: [0; 16], z: [0; 16], held: [0; 16], ad_total: 0, text_total: 0 };

/// The result of a call: the next session, the status (`number`), and how many bytes it wrote to the start of the output.
#[derive(Clone, Copy)]
pub struct Step {
    pub next: Session,
    pub number: u32,
    pub count: usize,
}

/// The bytes, followed by zeros.
fn filled(bytes: &[u8]) -> [u8; 16] {
    let mut all = [0; 16];
    all[..bytes.len()].copy_from_slice(bytes);
    all
}

impl Session {
    /// Whether every call on the value returns 9: it has a suite that cannot be started, or a total above its limit. A
    /// caller may pass any value; every other one is accepted as a session.
    fn is_over(&self) -> bool {
        !SEALED.contains(&self.suite) || self.ad_total > LIMIT || self.text_total > LIMIT
    }

    /// The bytes held back: of the associated data until the message begins, then of the message.
    pub fn held(&self) -> &[u8] {
        let total = if self.text_total == 0 { self.ad_total } else { self.text_total };
        &self.held[..total % block_size(self.suite)]
    }

    fn state<const N: usize, E: Cipher<N>>(&self, encrypt: E) -> State<N, E> {
        State { y: self.y[..N].try_into().unwrap(), z: self.z, version: version_of(self.suite), encrypt }
    }

    fn with<const N: usize, E: Cipher<N>>(self, state: State<N, E>, held: &[u8]) -> Session {
        Session { y: filled(&state.y), z: state.z, held: filled(held), ..self }
    }

    fn refused(self, status: u32) -> Step {
        Step { next: self, number: status, count: 0 }
    }
}

/// How many of these bytes are in whole blocks.
fn whole<const N: usize>(bytes: &[u8]) -> usize {
    bytes.len() / N * N
}

fn fresh<const N: usize>(encrypt: impl Cipher<N>, suite: u8, key: &[u8], nonce: &[u8]) -> Session {
    Session { suite, ..OVER }.with(State::start(encrypt, version_of(suite), key, nonce), &[])
}

fn take_data<const N: usize>(encrypt: impl Cipher<N>, session: Session, ad: &[u8]) -> Session {
    let mut state = session.state(encrypt);
    let bytes = [session.held(), ad].concat();
    let (blocks, rest) = bytes.split_at(whole::<N>(&bytes));
    state.absorb(session.ad_total < N, blocks);
    Session { ad_total: session.ad_total + ad.len(), ..session.with(state, rest) }
}

/// The state after all associated data, its short last block included, and the bytes of the message that are held back.
fn begun<const N: usize, E: Cipher<N>>(encrypt: E, session: &Session) -> (State<N, E>, &[u8]) {
    let mut state = session.state(encrypt);
    if session.text_total > 0 {
        return (state, session.held());
    }
    state.absorb(session.ad_total < N, session.held());
    (state, &[])
}

/// Absorbs a nonempty part of the message; returns the next session and how many bytes of ciphertext were output.
fn take_text<const N: usize>(
    encrypt: impl Cipher<N>,
    session: Session,
    msg: &[u8],
    out: &mut [u8],
) -> (Session, usize) {
    let (mut state, held) = begun(encrypt, &session);
    let bytes = [held, msg].concat();
    let (blocks, rest) = bytes.split_at(whole::<N>(&bytes));
    state.crypt(Text::Message, session.text_total < N, blocks, &mut out[..blocks.len()]);
    (Session { text_total: session.text_total + msg.len(), ..session.with(state, rest) }, blocks.len())
}

/// Writes the rest of the ciphertext and the tag; returns how many bytes of ciphertext were output.
fn finish<const N: usize>(encrypt: impl Cipher<N>, session: Session, out: &mut [u8], tag: &mut [u8]) -> usize {
    let (mut state, held) = begun(encrypt, &session);
    state.crypt(Text::Message, session.text_total < N, held, &mut out[..held.len()]);
    tag.copy_from_slice(&state.tag());
    held.len()
}

pub fn start(suite: u8, key: &[u8], nonce: &[u8]) -> Step {
    let (key_fits, nonce_fits) = (key.len() == 16, nonce.len() == nonce_size(suite));
    let status = first(&[(1, block_size(suite) == 0), (10, is_retired(suite)), (2, !key_fits), (3, !nonce_fits)]);
    if status != 0 {
        return OVER.refused(status);
    }
    Step { next: by_suite!(suite, fresh(suite, key, nonce)), number: 0, count: 0 }
}

/// Absorbs a part of the associated data. 9 also if the message has begun, even for an empty part.
pub fn data(session: Session, ad: &[u8]) -> Step {
    let left = LIMIT.saturating_sub(session.ad_total);
    let status = first(&[(9, session.is_over() || session.text_total > 0), (4, ad.len() > left)]);
    if status != 0 {
        return session.refused(status);
    }
    Step { next: by_suite!(session.suite, take_data(session, ad)), number: 0, count: 0 }
}

/// Absorbs a part of the message, and writes the ciphertext of the blocks that it completes to the start of `out`. An empty
/// part changes nothing.
pub fn part(session: Session, msg: &[u8], out: &mut [u8]) -> Step {
    let left = LIMIT.saturating_sub(session.text_total);
    let is_narrow = out.len() + 1 < msg.len() + block_size(session.suite);
    let status = first(&[(9, session.is_over()), (5, msg.len() > left), (6, is_narrow)]);
    if status != 0 || msg.is_empty() {
        return session.refused(status);
    }
    let (next, count) = by_suite!(session.suite, take_text(session, msg, out));
    Step { next, number: 0, count }
}

/// Ends the session: writes the rest of the ciphertext to the start of `out`, and the tag.
pub fn end(session: Session, out: &mut [u8], tag: &mut [u8]) -> Step {
    let block = block_size(session.suite);
    let status = first(&[(9, session.is_over()), (6, out.len() < block), (7, tag.len() != block)]);
    if status != 0 {
        return session.refused(status);
    }
    Step { next: OVER, number: 0, count: by_suite!(session.suite, finish(session, out, tag)) }
}

//! Shift files built entry by entry: good ones, and ones with chosen faults.

use crate::{comet, shift};

/// One job before it is sealed. The associated data starts with the job number and the unit.
#[derive(Clone)]
pub struct Entry {
    pub job: u32,
    pub station: u32,
    pub suite: u8,
    pub key: u8,
    pub nonce: [u8; 16],
    pub ad: Vec<u8>,
    pub message: Vec<u8>,
}

impl Entry {
    /// An entry at station 0, without further associated data. Nonce bytes that the suite does not read become 0.
    pub fn new(job: u32, suite: u8, key: u8, unit: u8, mut nonce: [u8; 16], message: &[u8]) -> Entry {
        nonce[comet::nonce_size(suite)..].fill(0);
        let mut ad = job.to_le_bytes().to_vec();
        ad.push(unit);
        Entry { job, station: 0, suite, key, nonce, ad, message: message.to_vec() }
    }

    /// The body of a draft: associated data, message, a tag of zeros.
    fn plain_body(&self) -> Vec<u8> {
        [&self.ad[..], &self.message, &vec![0; comet::block_size(self.suite)]].concat()
    }

    /// The sealed body: associated data, ciphertext, tag. A key number above 15, which no ring has, is reduced modulo 16.
    fn body(&self, ring: &[u8]) -> Vec<u8> {
        let key = &ring[16 * (self.key % 16) as usize..][..16];
        let nonce = &self.nonce[..comet::nonce_size(self.suite)];
        let (text, tag) = comet::specified(self.suite, key, nonce, &self.ad, &self.message);
        [self.ad.clone(), text, tag].concat()
    }
}

/// A file to be built, laid out as edition 1 or 2. The other fields are faults: `edition` and `count` replace the header's
/// edition and row count, `longer` is added to the header's total length, a zero byte precedes the body of each row in
/// `gaps`, and `tail` zero bytes follow the last body.
#[derive(Clone)]
pub struct Plan {
    pub layout: usize,
    pub edition: Option<u16>,
    pub count: Option<u16>,
    pub longer: u32,
    pub entries: Vec<Entry>,
    pub gaps: Vec<usize>,
    pub tail: usize,
}

/// The offset of a row in edition 1.
pub fn row_at(row: usize) -> usize {
    shift::row_at(1, row)
}

impl Plan {
    pub fn new(entries: Vec<Entry>) -> Plan {
        Plan { layout: 1, edition: None, count: None, longer: 0, entries, gaps: vec![], tail: 0 }
    }

    /// The same plan in another edition.
    pub fn in_edition(&self, layout: usize) -> Plan {
        Plan { layout, ..self.clone() }
    }

    /// The same plan with suite `to` in every row of suite `from`.
    pub fn resuited(&self, from: u8, to: u8) -> Plan {
        let mut plan = self.clone();
        plan.entries.iter_mut().filter(|entry| entry.suite == from).for_each(|entry| entry.suite = to);
        plan
    }

    /// The same plan with station 0 in every row.
    pub fn without_stations(&self) -> Plan {
        let mut plan = self.clone();
        plan.entries.iter_mut().for_each(|entry| entry.station = 0);
        plan
    }

    /// The sealed file.
    pub fn file(&self, ring: &[u8]) -> Vec<u8> {
        self.lay(self.layout, |entry| entry.body(ring))
    }

    /// The draft (document 02, W4).
    pub fn draft(&self) -> Vec<u8> {
        self.lay(0, Entry::plain_body)
    }

    /// The bytes of the file in an edition, with each entry's body from `body`.
    fn lay(&self, edition: usize, body: impl Fn(&Entry) -> Vec<u8>) -> Vec<u8> {
        let mut table = vec![];
        let mut bodies = vec![];
        let start = shift::row_at(edition, self.entries.len());
        for (i, entry) in self.entries.iter().enumerate() {
            if self.gaps.contains(&i) {
                bodies.push(0);
            }
            table.extend(entry.job.to_le_bytes());
            if edition == 2 {
                table.extend(entry.station.to_le_bytes());
            }
            table.extend([entry.suite, entry.key]);
            table.extend((entry.ad.len() as u16).to_le_bytes());
            table.extend(((start + bodies.len()) as u32).to_le_bytes());
            table.extend((entry.message.len() as u32).to_le_bytes());
            table.extend(entry.nonce);
            bodies.extend(body(entry));
        }
        bodies.resize(bodies.len() + self.tail, 0);
        self.finish(edition as u16, [table, bodies].concat())
    }

    /// The header, followed by `rest`.
    fn finish(&self, edition: u16, rest: Vec<u8>) -> Vec<u8> {
        let count = self.count.unwrap_or(self.entries.len() as u16);
        let total = ((shift::HEADER + rest.len()) as u32).wrapping_add(self.longer);
        let mut file = self.edition.unwrap_or(edition).to_le_bytes().to_vec();
        file.extend(count.to_le_bytes());
        file.extend(total.to_le_bytes());
        file.extend(rest);
        file
    }
}

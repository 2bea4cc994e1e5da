// One file: from its bytes to a report. Every verdict is a status that the library returned; rows, offsets and lengths are
// the library's as well. This file reads single bytes only at offsets that the library gave.
import { FILE_BYTES_MAX, RING_BYTES } from './library.mjs';
import { SUITES, bytesWord, entriesWord, grouped, hex, jobsWord, suiteName } from './text.mjs';

// The associated data begins with the job number (4 bytes) and the unit (1 byte).
const UNIT_AT = 4;
const OWN_DATA_AT = 5;

// Reading one byte more than the longest file is enough for the library to refuse a longer one.
export const READ_BYTES_MAX = FILE_BYTES_MAX + 1;

// Whether a file dropped among shift files is a key ring: it has a ring's length and is no shift file.
export const looksLikeRing = (library, bytes) => bytes.length === RING_BYTES && library.check(bytes).status !== 0;

// ---- refusals in words ---------------------------------------------------------------------------------------------

const ROW_STATUSES = [25, 26, 27, 28, 29, 30, 34];

// The library's words for a status, with the row that it carries.
export function wordsOf(library, status, row) {
  const words = library.words(status);
  if (!ROW_STATUSES.includes(status)) return words;
  return /^the row\b/.test(words) ? words.replace(/^the row\b/, `row ${row}`) : `row ${row}: ${words}`;
}

export const refusalLine = (library, { status, row }) => `${wordsOf(library, status, row)} (${status})`;

const rowAt = (library, bytes, index) => library.rowsAt(bytes, [index])[0];
const bodyEnd = (row) => row.dataAt + row.dataLength + row.textLength + SUITES[row.suite].tag;

// Notes for 20 to 24: the library returns no rows of such a file.
function headNotes(status, size) {
  const own = `The file has ${bytesWord(size)}.`;
  const more = {
    21: 'A draft (edition 0) is refused with this status: its messages are not sealed yet.',
    23: 'Bytes are missing or were added: the file may have been cut off while it was copied.',
    24: 'Bytes are missing, or the number of rows in its header is wrong.',
  }[status];
  // Dropped among shift files, only a ring of the right length is known as one.
  const ring = size < 2 * RING_BYTES && size !== RING_BYTES ? `If it is meant as a key ring: a ring has ${bytesWord(RING_BYTES)}.` : null;
  return [own, more, ring].filter(Boolean);
}

function endNotes(library, bytes, size) {
  const { count } = library.rows(bytes);
  if (count === 0) return [`The file has no rows, and ${bytesWord(size)}: more than its header.`];
  return [`The last body ends at byte ${grouped(bodyEnd(rowAt(library, bytes, count - 1)))}; the file has ${grouped(size)}.`];
}

function bodyNotes(library, bytes, at, row, size) {
  const start = row > 0 ? bodyEnd(rowAt(library, bytes, row - 1)) : null;
  if (start !== null && start !== at.dataAt) {
    return [`The body of row ${row} (job ${at.job}) must start at byte ${grouped(start)}; the row says ${grouped(at.dataAt)}.`];
  }
  return [`The body of row ${row} (job ${at.job}) starts at byte ${grouped(at.dataAt)} and ends at byte ${grouped(bodyEnd(at))}; `
    + `the file has ${grouped(size)}.`];
}

const nonceOf = (bytes, row) => bytes.subarray(row.nonceAt, row.nonceAt + SUITES[row.suite].nonce);

function repeatNotes(library, bytes, at, row) {
  const key = (r) => `${r.suite} ${r.key} ${hex(nonceOf(bytes, r))}`;
  const earlier = library.rowsAt(bytes, Array.from({ length: row }, (_, i) => i)).findIndex((r) => key(r) === key(at));
  if (earlier < 0) return [];
  const other = rowAt(library, bytes, earlier);
  return [
    `Row ${row} (job ${at.job}) and row ${earlier} (job ${other.job}) have suite ${at.suite} (${suiteName(at.suite)}), `
      + `key number ${at.key} and nonce ${hex(nonceOf(bytes, at))}.`,
    'No two records may have the same key and nonce: the sender must seal both again with new nonces.',
  ];
}

function dataNotes(bytes, at, name) {
  const unit = bytes[at.dataAt + UNIT_AT];
  if (unit !== 1 && unit !== 2) return [`${name}: the unit byte in its associated data is ${unit}.`];
  const job = hex(bytes.subarray(at.dataAt, at.dataAt + UNIT_AT), ' ');
  return [`${name}: the job number in its associated data is another one (bytes ${job}, lowest first).`];
}

function rowNotes(library, bytes, { status, row }, size) {
  const at = rowAt(library, bytes, row);
  const name = `Row ${row} (job ${at.job})`;
  switch (status) {
    case 25: return [`Row ${row} has job ${at.job}, and row ${row - 1} has job ${rowAt(library, bytes, row - 1).job}.`];
    case 26: return [`${name} has suite ${at.suite} and key number ${at.key}.`];
    case 27: return [`${name} has ${bytesWord(at.dataLength)} of associated data and a message of ${bytesWord(at.textLength)}.`];
    case 28: return bodyNotes(library, bytes, at, row, size);
    case 34: return [`${name} has the nonce bytes ${hex(bytes.subarray(at.nonceAt, at.nonceAt + 16))}.`];
    case 29: return repeatNotes(library, bytes, at, row);
    default: return dataNotes(bytes, at, name);
  }
}

// Sentences on the bytes for which a file was refused, to help whoever made it. No verdict depends on them.
export function refusalNotes(library, bytes, refusal, size) {
  if (refusal.status === 31) return endNotes(library, bytes, size);
  if (ROW_STATUSES.includes(refusal.status)) return rowNotes(library, bytes, refusal, size);
  return headNotes(refusal.status, size);
}

// ---- entries -------------------------------------------------------------------------------------------------------

const dataOf = (bytes, at, length) => ({ unit: bytes[at + UNIT_AT], data: bytes.subarray(at + OWN_DATA_AT, at + length) });

// The entries of a file that passed the check, with the values that the file claims.
function claimedEntries(library, bytes) {
  const { status, edition, count } = library.rows(bytes);
  if (status !== 0) throw new Error(`shift_rows returned ${status} for a checked file`);
  const entries = library.rowsAt(bytes, Array.from({ length: count }, (_, i) => i)).map((r, row) => {
    if (r.status !== 0) throw new Error(`shift_row returned ${r.status} for row ${row}`);
    const tagAt = r.textAt + r.textLength;
    return {
      row, job: r.job, station: edition === 2 ? r.station : null, suite: r.suite, key: r.key,
      nonce: nonceOf(bytes, r), dataAt: r.dataAt, dataLength: r.dataLength, messageLength: r.textLength,
      ...dataOf(bytes, r.dataAt, r.dataLength),
      text: bytes.subarray(r.textAt, tagAt), // the ciphertext
      tag: bytes.subarray(tagAt, tagAt + SUITES[r.suite].tag),
      verdict: 'unverified', status: null,
    };
  });
  return { edition, entries };
}

// Compares every tag under the ring. Returns 0, or 2 if the ring is refused. A genuine entry takes its unit and data from
// where the library found the tag right.
function verifyEntries(library, bytes, ring, entries) {
  const answers = library.verified(bytes, ring, entries.map((e) => e.job));
  if (answers.some((a) => a.status === 2)) return 2;
  answers.forEach(({ status, at, length }, i) => {
    const entry = entries[i];
    if (status !== 0 && status !== 8) throw new Error(`shift_verified returned ${status} for job ${entry.job}`);
    entry.status = status;
    entry.verdict = status === 0 ? 'genuine' : 'forged';
    if (status === 8) return;
    if (at !== entry.dataAt || length !== entry.dataLength) throw new Error(`job ${entry.job}: the verified data is elsewhere`);
    Object.assign(entry, dataOf(bytes, at, length));
  });
  return 0;
}

// ---- verdicts ------------------------------------------------------------------------------------------------------

const DIFFERS = 'A tag differs if a byte was altered, if the unit was exchanged, or if the key is another one. Nobody can tell which.';
const COVERS = 'Each tag covers its job number, unit, data and message. No tag covers a station number, or which entries the file '
  + 'has: an altered station and a removed entry go unnoticed.';

export const count = (entries, test) => entries.filter(test).length;

export function countsOf(entries) {
  return {
    entries: entries.length,
    genuine: count(entries, (e) => e.verdict === 'genuine'),
    forged: count(entries, (e) => e.verdict === 'forged'),
    unverified: count(entries, (e) => e.verdict === 'unverified'),
    newtonMetres: count(entries, (e) => e.unit === 1),
    inchPounds: count(entries, (e) => e.unit === 2),
  };
}

// If the wrong tags are exactly those of some keys, the ring may be the wrong one.
function ringHint(entries) {
  const forged = entries.filter((e) => e.verdict === 'forged');
  if (forged.length === entries.length) {
    return entries.length > 1 ? ['Every tag differs, as with a wrong key ring: check that this is the right ring.'] : [];
  }
  const keys = [...new Set(forged.map((e) => e.key))].sort((a, b) => a - b);
  const whole = (k) => {
    const under = entries.filter((e) => e.key === k);
    return under.length > 1 && under.every((e) => e.verdict === 'forged');
  };
  if (!keys.every(whole)) return [];
  return [`The wrong tags are exactly those under key number ${keys.join(', ')}: the ring may have another key there.`];
}

// The verdict on verified entries. `whose` follows the count: ' of both files'.
export function verdictOf(entries, whose = '') {
  const forged = entries.filter((e) => e.verdict === 'forged').map((e) => e.job);
  const jobs = [...new Set(forged)]; // a job can be forged in both files
  const all = entries.length === 1 ? 'the only entry' : `all ${entriesWord(entries.length)}`;
  if (forged.length === 0) return { verdict: 'genuine', headline: `Genuine: ${all}${whose}`, warnings: [], notes: [COVERS] };
  const some = `${grouped(forged.length)} of ${entriesWord(entries.length)}${whose} (${jobsWord(jobs)})`;
  return {
    verdict: 'forged',
    headline: `FORGED: ${forged.length === entries.length ? `${all}${whose}` : some}`,
    warnings: ['Do not use a figure or a unit of a forged entry.', ...ringHint(entries)],
    notes: [DIFFERS, COVERS],
  };
}

function unverifiedOf(library, ring, entries) {
  const why = ring ? `${library.words(2)} (2)` : 'no key ring';
  return {
    verdict: 'unverified', status: ring ? 2 : 0, headline: `Checked, not verified: ${why}`,
    warnings: ['Use nothing yet: no tag was compared.'],
    notes: [
      `The file is well formed and has ${entriesWord(entries.length)}. Whether they are genuine is unknown: that takes the key ring.`,
      'Job numbers, units and data are what the file claims.',
      ...(ring ? [`The chosen ring has ${bytesWord(ring.length)}; a key ring has ${RING_BYTES}.`] : []),
    ],
  };
}

export const USE_NOTHING = 'Use nothing of this file.';
const EMPTY_NOTE = 'A file without entries has no tag: nothing in it can be verified, and anyone can make one.';

export const blankReport = (size) => (
  { size, status: 0, row: 0, edition: null, warnings: [], notes: [], entries: [], counts: countsOf([]) });

// Inspects a file: { verdict, headline, warnings, notes, status, row, size, edition, entries, counts }.
// verdict is 'genuine', 'forged', 'refused', 'unverified' or 'empty'. ring is null if there is none. size is the file's
// length if bytes is only its start.
export function inspect(library, bytes, ring, size = bytes.length) {
  const refusal = library.check(bytes);
  if (refusal.status !== 0) {
    return {
      ...blankReport(size), verdict: 'refused', ...refusal, headline: `Refused: ${refusalLine(library, refusal)}`,
      warnings: [USE_NOTHING], notes: refusalNotes(library, bytes, refusal, size),
    };
  }
  const { edition, entries } = claimedEntries(library, bytes);
  const report = { ...blankReport(size), edition, entries };
  if (entries.length === 0) {
    return { ...report, verdict: 'empty', headline: 'Empty: well formed, with no entries', notes: [EMPTY_NOTE] };
  }
  const verified = ring !== null && verifyEntries(library, bytes, ring, entries) === 0;
  return { ...report, counts: countsOf(entries), ...(verified ? verdictOf(entries) : unverifiedOf(library, ring, entries)) };
}

// Opens an entry of a file: { status, words, message }; the message is null unless the status is 0.
export function openEntry(library, bytes, ring, entry) {
  if (!ring) return { status: null, words: 'no key ring', message: null };
  const { status, row, message } = library.openJob(bytes, ring, entry.job, entry.messageLength);
  return { status, words: wordsOf(library, status, row), message };
}

// Several files in one line: "3 files: 1 FORGED, 1 refused, 1 genuine".
export function summaryOf(reports) {
  const words = {
    forged: 'FORGED', refused: 'refused', broken: 'without a verdict', unverified: 'not verified', empty: 'empty', genuine: 'genuine',
  };
  const parts = Object.entries(words).map(([kind, word]) => [count(reports, (r) => r.verdict === kind), word]).filter(([n]) => n > 0);
  return `${reports.length} files: ${parts.map(([n, word]) => `${n} ${word}`).join(', ')}`;
}

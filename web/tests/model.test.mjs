// Tests of the model under node: from bytes to a report. web/test runs them after it has built target/web/{page,whole}.wasm.
import test from 'node:test';
import assert from 'node:assert/strict';
import { inspect, looksLikeRing, openEntry, summaryOf } from '../src/inspect.mjs';
import { inspectAmended, openCurrent } from '../src/amend.mjs';
import { compareFiles } from '../src/compare.mjs';
import { toCsv, toJson } from '../src/report.mjs';
import { SUITES, TRUST, hex, jobsWord, shown } from '../src/text.mjs';
import { sha256 } from '../src/sha256.mjs';
import crypto from 'node:crypto';
import {
  altered, amendment, bodyAt, bodyOf, changing, day, exchanged, flip, library, longest, many, read, reader, refused, refusedWith,
  ring, rowAt, sample, sealed, stations, text,
} from './files.mjs';
import { gateCalls, inLine } from './gate.mjs';

const jobs = (entries) => entries.map((e) => e.job);
const differing = (d) => d.fields.filter((f) => !f.same).map((f) => f.name).join();

// ---- one file

test('the sample day is genuine', () => {
  const r = inspect(library, day, ring);
  assert.deepEqual([r.verdict, r.headline, r.edition], ['genuine', 'Genuine: all 8 entries', 1]);
  assert.deepEqual(jobs(r.entries), [4101, 4102, 4103, 4105, 4110, 4200, 4210, 4211]);
  assert.deepEqual(r.entries.map((e) => e.unit), [1, 1, 2, 2, 1, 1, 1, 2]);
  assert.deepEqual(r.entries.map((e) => e.suite), [1, 2, 3, 4, 3, 1, 5, 6]);
  assert.deepEqual(r.entries.map((e) => e.key), [0, 1, 2, 3, 2, 15, 4, 5]);
  assert.deepEqual(r.entries.map((e) => e.messageLength), [100, 78, 63, 50, 0, 67, 69, 52]);
  assert.deepEqual(r.entries.map((e) => e.station), Array(8).fill(null));
  assert.deepEqual(r.counts, { entries: 8, genuine: 8, forged: 0, unverified: 0, newtonMetres: 5, inchPounds: 3 });
  assert.equal(text(r.entries[0].data), 'line 2 station 7');
});

test('without a ring nothing is verified', () => {
  const r = inspect(library, day, null);
  assert.deepEqual([r.verdict, r.headline], ['unverified', 'Checked, not verified: no key ring']);
  assert.ok(r.entries.every((e) => e.verdict === 'unverified' && TRUST[e.verdict] === 'claimed'));
  assert.equal(openEntry(library, day, null, r.entries[0]).message, null);
});

test('a ring of another length is refused in words (2)', () => {
  for (const length of [0, 255, 257]) {
    const r = inspect(library, day, new Uint8Array(length));
    assert.deepEqual([r.verdict, r.status], ['unverified', 2]);
    assert.match(r.headline, /^Checked, not verified: .*the ring is not 256 bytes long \(2\)$/);
    assert.match(r.notes.join(' '), new RegExp(`The chosen ring has ${length} bytes?; a key ring has 256`));
    const dropped = new Uint8Array(length).fill(7); // among the shift files
    assert.ok(!looksLikeRing(library, dropped));
    assert.match(inspect(library, dropped, null).notes.join(' '), /If it is meant as a key ring: a ring has 256 bytes\./);
  }
  assert.equal(inspect(library, longest(), new Uint8Array(3)).status, 2);
});

test('another ring: every tag differs', () => {
  const r = inspect(library, day, new Uint8Array(256));
  assert.equal(r.headline, 'FORGED: all 8 entries');
  assert.match(r.warnings.join(' '), /check that this is the right ring/);
});

test('a flipped byte of a ciphertext', () => {
  const bad = altered(day, { [bodyOf(1) + 30]: flip });
  const r = inspect(library, bad, ring);
  assert.deepEqual([r.verdict, r.headline], ['forged', 'FORGED: 1 of 8 entries (job 4102)']);
  assert.deepEqual(r.entries.map((e) => e.verdict), ['genuine', 'forged', ...Array(6).fill('genuine')]);
  assert.equal(r.entries[1].status, 8);
  assert.deepEqual(openEntry(library, bad, ring, r.entries[1]), { status: 8, words: library.words(8), message: null });
  assert.equal(TRUST[r.entries[1].verdict], 'claimed, and the tag differs');
});

test('an exchanged unit, and every other byte of a body', () => {
  const r = inspect(library, exchanged, ring);
  assert.equal(r.headline, 'FORGED: 1 of 8 entries (job 4103)');
  assert.deepEqual([r.entries[2].unit, r.entries[2].verdict], [1, 'forged']);
  for (let at = bodyOf(0); at < day.length; at++) {
    const found = inspect(library, altered(day, { [at]: flip }), ring);
    assert.ok(found.verdict === 'forged' || found.status === 30, `byte ${at}: ${found.headline}`);
  }
});

test('which entries are forged, and the hint at a key', () => {
  const bad = altered(day, { [bodyOf(0) + 30]: flip, [bodyOf(7) + 30]: flip });
  assert.equal(inspect(library, bad, ring).headline, 'FORGED: 2 of 8 entries (jobs 4101 and 4211)');
  const r = inspect(library, day, altered(ring, { 40: flip })); // in key 2, which rows 2 and 4 have
  assert.equal(r.headline, 'FORGED: 2 of 8 entries (jobs 4103 and 4110)');
  assert.match(r.warnings.join(' '), /exactly those under key number 2/);
  assert.equal(jobsWord([1, 2, 3, 4, 5, 6]), 'jobs 1, 2, 3, 4 and 2 more');
});

test('an entry is opened', () => {
  const r = inspect(library, day, ring);
  const opened = openEntry(library, day, ring, r.entries[2]);
  assert.equal(text(opened.message), 'gearbox 4103 bolt 1/4-28 count 6 torque 106 108 107 107 106 109');
  assert.equal(openEntry(library, day, ring, r.entries[4]).message.length, 0);
});

test('edition 2 has stations, which no tag covers', () => {
  const r = inspect(library, stations, ring);
  assert.deepEqual([r.headline, r.edition], ['Genuine: all 8 entries', 2]);
  assert.deepEqual(r.entries.map((e) => e.station), [207, 207, 207, 208, 0, 311, 207, 208]);
  assert.deepEqual(r.entries.map((e) => e.unit), [1, 1, 2, 2, 1, 1, 1, 2]);
  const moved = inspect(library, altered(stations, { 12: 9 }), ring);
  assert.deepEqual([moved.entries[0].station, moved.verdict], [9, 'genuine']);
  assert.match(r.notes.join(' '), /No tag covers a station number/);
});

test('a file without entries is not called genuine', () => {
  for (const keys of [ring, null, new Uint8Array(5)]) {
    const r = inspect(library, new Uint8Array([1, 0, 0, 0, 8, 0, 0, 0]), keys);
    assert.deepEqual([r.verdict, r.headline], ['empty', 'Empty: well formed, with no entries']);
  }
});

// ---- statuses

// 33 is for drafts, 35 for moves to edition 1; the page's module has neither function. 36: lists of 512 elements always suffice.
const UNREACHABLE = [33, 35, 36];

test('every status of the check is a refusal in words, with its row', () => {
  for (const [status, at, bytes] of refused) {
    const r = inspect(library, bytes, ring);
    assert.deepEqual([r.verdict, r.status, r.row, r.entries.length], ['refused', status, at, 0], `${status}`);
    assert.ok(r.headline.startsWith('Refused: ') && r.headline.endsWith(`(${status})`), r.headline);
    assert.ok(r.notes.length > 0 && r.notes.every((n) => !/undefined|NaN|null/.test(n)), r.notes.join());
    assert.deepEqual(r.warnings, ['Use nothing of this file.']);
    assert.equal(inspect(library, bytes, null).headline, r.headline);
  }
  const met = new Set([...refused.map(([status]) => status), 32, ...UNREACHABLE]);
  assert.deepEqual([...met].sort(), Array.from({ length: 17 }, (_, i) => 20 + i));
});

test('32: no row has the job', () => {
  assert.deepEqual(reader.lookup(day, 4104), { status: 32, row: 0 });
  assert.deepEqual(reader.lookup(day, 4105), { status: 0, row: 3 });
  assert.equal(reader.verified(day, ring, [4104])[0].status, 32);
  assert.equal(reader.rowsAt(day, [8])[0].status, 32);
  assert.equal(reader.amended(amendment, day, [4104])[0].status, 32);
});

test('33, 35 and 36 cannot be met: the module has no function for them', () => {
  const names = Object.keys(reader.exports).filter((name) => typeof reader.exports[name] === 'function');
  assert.deepEqual(names.sort(), ['shift_amended', 'shift_check', 'shift_compare', 'shift_lookup', 'shift_open_amended',
    'shift_open_job', 'shift_row', 'shift_rows', 'shift_verified', 'snoekeldraf_words']);
  const [a, b] = [many(512), sealed(Array.from({ length: 512 }, (_, i) => ({ job: i, suite: 3 })))];
  assert.equal(reader.compare(a, b).status, 0);
});

test('words are the C table and name the row', () => {
  const line = (status) => inspect(library, refusedWith(status), ring);
  assert.match(line(29).headline, /^Refused: row 4 repeats the suite, key number and nonce of an earlier row.*\(29\)$/);
  assert.match(line(29).notes[0], /^Row 4 \(job 4110\) and row 2 \(job 4103\) have suite 3 \(Speck-64\/128\), key number 2/);
  assert.match(line(29).notes[1], /the sender must seal both again with new nonces/);
  assert.match(line(25).headline, /^Refused: row 1's job number is not above the row before's \(25\)$/);
  assert.match(line(25).notes[0], /^Row 1 has job 4101, and row 0 has job 4101/);
  assert.match(line(21).notes.join(' '), /A draft \(edition 0\)/);
  assert.match(line(23).notes.join(' '), /^The file has 990 bytes\..*cut off/);
  assert.match(line(30).notes[0], /^Row 6 \(job 4210\): the job number in its associated data is another one/);
  const words = Array.from({ length: 37 }, (_, status) => reader.words(status));
  for (const status of [0, 2, 8, ...Array.from({ length: 17 }, (_, i) => 20 + i)]) assert.ok(words[status].length > 5, `${status}`);
  assert.equal(new Set(words.slice(20)).size, 17);
});

test('names, nonce and tag lengths of the suites are the library\'s', () => {
  for (const [suite, facts] of Object.entries(SUITES)) {
    for (let length = 0; length <= 20; length++) {
      assert.equal(library.verify(Number(suite), length, facts.tag) === 3, length !== facts.nonce, `suite ${suite}, nonce ${length}`);
      assert.equal(library.verify(Number(suite), facts.nonce, length) === 7, length !== facts.tag, `suite ${suite}, tag ${length}`);
    }
  }
  assert.equal(library.verify(7, 16, 16), 1);
});

// ---- hostile and large files

test('a hostile file is never called genuine and never breaks the reader', () => {
  let seed = 7;
  const random = () => { seed = (Math.imul(seed, 1103515245) + 12345) >>> 0; return seed >>> 8; };
  const kinds = {};
  for (let i = 0; i < 3000; i++) {
    const from = i % 2 ? day : stations;
    const changes = {};
    for (let k = 0; k <= random() % 3; k++) changes[random() % (i % 3 ? 0x130 : from.length)] = random() & 255;
    const bytes = altered(from, changes).slice(0, random() % 4 ? undefined : random() % from.length);
    const r = inspect(library, bytes, ring);
    kinds[r.verdict] = (kinds[r.verdict] ?? 0) + 1;
    const body = 8 + (from === day ? 32 : 36) * 8;
    if (Object.keys(changes).some((at) => at >= body && bytes[at] !== from[at])) assert.notEqual(r.verdict, 'genuine');
    assert.ok(r.notes.every((n) => !/undefined|NaN/.test(n)), r.notes.join());
  }
  assert.ok(kinds.refused > 500 && kinds.forged > 100, JSON.stringify(kinds));
});

test('512 entries, in small files and in one of 1,048,576 bytes', () => {
  const [small, big] = [many(512), longest()];
  assert.deepEqual([small.length <= 65280, big.length], [true, 1048576]);
  for (const file of [small, big]) {
    const r = inspect(library, file, ring);
    assert.deepEqual([r.headline, r.counts.inchPounds], ['Genuine: all 512 entries', 73]);
    const f = inspect(library, altered(file, { [bodyAt(file, 300) + 20]: flip, [bodyAt(file, 3) + 4]: 1 }), ring);
    assert.equal(f.headline, 'FORGED: 2 of 512 entries (jobs 5009 and 5900)');
    assert.deepEqual(f.entries.filter((e) => e.verdict === 'forged').map((e) => [e.row, e.unit]), [[3, 1], [300, f.entries[300].unit]]);
  }
});

test('verdicts are those of shift_report', () => {
  const files = [day, stations, amendment, exchanged, many(512), altered(many(512), { 60000: flip })];
  for (const file of files) {
    const told = library.report(file, ring);
    assert.deepEqual(inspect(library, file, ring).entries.map(({ job, status }) => ({ job, status })), told.entries);
  }
});

test('nothing stays in the module after a call', () => {
  const untouched = (lib) => new Uint8Array(lib.exports.memory.buffer);
  const before = untouched(reader).slice();
  const r = inspect(reader, longest(), ring);
  openEntry(reader, day, ring, inspect(reader, day, ring).entries[0]);
  compareFiles(reader, day, exchanged, ring);
  assert.equal(r.verdict, 'genuine');
  const after = untouched(reader);
  assert.ok(after.length > before.length);
  assert.ok(after.every((b, i) => b === (before[i] ?? 0)));
});

test("the page's module answers as the whole one", () => {
  const files = [day, stations, amendment, many(512), altered(day, { 900: flip }), ...refused.map(([, , bytes]) => bytes)];
  for (const file of files) {
    for (const keys of [ring, null]) {
      assert.deepEqual(inspect(reader, file, keys), inspect(library, file, keys));
      assert.deepEqual(inspectAmended(reader, amendment, file, keys), inspectAmended(library, amendment, file, keys));
      assert.deepEqual(compareFiles(reader, day, file, keys), compareFiles(library, day, file, keys));
    }
  }
});

// ---- the gate's data

const CALLS = gateCalls();
const numbersIn = (line) => line.split(' ').slice(0, 6).map(Number);

test("the gate's data: check, lookup and opening", () => {
  const statuses = new Set();
  const calls = CALLS.filter(({ op }) => op === 0);
  for (const { files: [file, keys], job, numbers, lines: [line] } of calls) {
    const [status, row, looked, at] = numbersIn(line);
    const r = inspect(reader, file, keys);
    assert.deepEqual([r.verdict === 'refused' ? r.status : 0, r.row], [status, status === 0 ? 0 : row], line);
    assert.deepEqual(Object.values(reader.lookup(file, job)), [looked, at], line);
    const opened = reader.openJob(file, keys, job, numbers[2]);
    const [, , , , place, length, data, opens, , out] = line.split(' ');
    assert.equal(opened.status, Number(opens), line);
    if (opened.status === 0) assert.equal(inLine(opened.message, hex), out, line);
    const entry = r.entries.find((e) => e.job === job);
    if (entry) {
      const part = file.slice(entry.dataAt, entry.dataAt + entry.dataLength);
      assert.deepEqual([entry.dataAt, entry.dataLength, inLine(part, hex)], [Number(place), Number(length), data], line);
    }
    if (entry && keys.length === 256 && opens !== '6') assert.equal(entry.status, Number(opens), line);
    statuses.add(status).add(Number(opens));
  }
  assert.ok(calls.length > 500);
  for (const status of [0, 2, 8, 20, 21, 22, 23, 24, 25, 26, 27, 28, 29, 30, 31, 32, 34]) assert.ok(statuses.has(status), `${status}`);
});

test("the gate's data: reports", () => {
  const calls = CALLS.filter(({ op }) => op === 5);
  let lists = 0;
  for (const { files: [file, keys], numbers, lines: [line] } of calls) {
    const [status, row, count] = numbersIn(line);
    const r = inspect(reader, file, keys);
    if (status === 20 && file.length > 65280) continue; // the report's own limit
    if (status >= 20) assert.deepEqual([r.status, r.row], [status, row], line);
    else if (status === 2) assert.ok(r.status === 2 || r.verdict === 'empty', line);
    else if (status === 0 && numbers[3] <= 64) {
      const words = line.split(' ');
      const each = words.at(-1).match(/../g) ?? [];
      assert.deepEqual(r.entries.map((e) => [e.job, e.status]), r.entries.map((_, i) => [Number(words[3 + i]), parseInt(each[i], 16)]), line);
      assert.equal(r.entries.length, count);
      lists += 1;
    }
  }
  assert.ok(calls.length > 100 && lists > 30, `${lists}`);
});

test("the gate's data: comparisons and amendments", () => {
  const kinds = [0, 0];
  for (const { op, files, job, numbers, lines: [line] } of CALLS.filter((c) => c.op === 3 || c.op === 4)) {
    const [status, file, row, first, second, differ] = numbersIn(line);
    if (op === 4) {
      const c = compareFiles(reader, files[0], files[1], ring);
      if (status === 36) continue; // a list of the gate's call is too short; the page's never is
      assert.deepEqual([c.status, c.file, c.row], [status, file, row], line);
      if (status === 0) assert.deepEqual([c.onlyFirst.length, c.onlySecond.length, c.differ.length], [first, second, differ], line);
      kinds[0] += 1;
    } else {
      const [found] = reader.amended(files[0], files[1], [job]);
      assert.deepEqual([found.status, found.file, found.row, found.at, found.length], [status, file, row, first, second], line);
      const r = inspectAmended(reader, files[0], files[1], files[2].length === 256 ? files[2] : null);
      if (status >= 20 && status !== 32) assert.deepEqual([r.verdict, r.status, r.row], ['refused', status, row], line);
      else assert.equal(r.entries.some((e) => e.job === job), status === 0, line);
      const opened = reader.openAmended(files[0], files[1], files[2], job, numbers[3]);
      assert.deepEqual([opened.status, opened.file, opened.row], line.split(' ').slice(6, 9).map(Number), line);
      kinds[1] += 1;
    }
  }
  assert.ok(kinds[0] > 100 && kinds[1] > 100, `${kinds}`);
});

test("the gate's data: table of contents", (t) => {
  const calls = CALLS.filter(({ op }) => op === 10);
  if (calls.length === 0) return t.skip('crates/test_shift has no calls of the table of contents');
  for (const { files: [file], job: first, lines: [head, ...rows] } of calls) {
    assert.equal(Object.values(reader.rows(file)).join(' '), head);
    const answers = reader.rowsAt(file, rows.map((_, i) => first + i));
    assert.deepEqual(answers.map((r) => Object.values(r).join(' ')), rows);
  }
  return assert.ok(calls.length > 30);
});

// ---- amendments

test('an amendment', () => {
  const r = inspectAmended(library, amendment, day, ring);
  assert.equal(r.headline, 'Genuine: all 11 entries of both files');
  assert.deepEqual(r.entries.map((e) => [e.job, e.file, e.standing]), [
    [4101, 'day', 'current'], [4102, 'amendment', 'replaces'], [4102, 'day', 'replaced'], [4103, 'day', 'current'],
    [4105, 'day', 'current'], [4110, 'amendment', 'replaces'], [4110, 'day', 'replaced'], [4200, 'day', 'current'],
    [4210, 'day', 'current'], [4211, 'day', 'current'], [4220, 'amendment', 'adds'],
  ]);
  const [now, old] = r.entries.filter((e) => e.job === 4102);
  assert.match(text(openCurrent(library, amendment, day, ring, now).message), /^gearbox 4102 /);
  assert.match(text(openEntry(library, day, ring, old).message), /^gearbox 4102 bolt M8x40 count 8 torque 24.9/);
  assert.equal(r.notes[0], 'With the amendment there are 9 jobs: 6 unchanged, 2 replaced, 1 added.');
  const unverified = inspectAmended(library, amendment, day, null);
  assert.deepEqual([unverified.headline, unverified.warnings], ['Checked, not verified: no key ring', ['Use nothing yet: no tag was compared.']]);
});

test('an amendment changes a unit, or claims to', () => {
  const warning = (a, d, keys) => inspectAmended(library, a, d, keys).warnings[0];
  assert.equal(warning(changing, day, ring), 'The amendment changes the unit of job 4103.');
  assert.equal(warning(changing, day, null), 'The amendment claims to change the unit of job 4103.');
  assert.equal(warning(altered(changing, { [bodyAt(changing, 0) + 20]: flip }), day, ring), 'The amendment claims to change the unit of job 4103.');
  assert.equal(warning(changing, altered(day, { [bodyOf(2) + 30]: flip }), ring), 'The amendment claims to change the unit of job 4103.');
  assert.deepEqual(inspectAmended(library, amendment, day, ring).warnings, []);
});

test('an amendment that is forged or refused', () => {
  const forged = inspectAmended(library, altered(amendment, { [amendment.length - 1]: flip }), day, ring);
  assert.equal(forged.headline, 'FORGED: 1 of 11 entries of both files (job 4220)');
  const old = inspectAmended(library, amendment, altered(day, { [bodyOf(1) + 30]: flip }), ring);
  assert.deepEqual(old.entries.filter((e) => e.verdict === 'forged').map((e) => e.standing), ['replaced']);
  const both = inspectAmended(library, altered(amendment, { [bodyAt(amendment, 0) + 20]: flip }), altered(day, { [bodyOf(1) + 30]: flip }), ring);
  assert.equal(both.headline, 'FORGED: 2 of 11 entries of both files (job 4102)');
  const refusal = inspectAmended(library, day.slice(1), day, ring);
  assert.match(refusal.headline, /^Refused: the amendment: /);
  assert.deepEqual(refusal.warnings, ['Use nothing of these two files: which entries are current is unknown.']);
  assert.match(inspectAmended(library, amendment, refusedWith(29), ring).headline, /^Refused: the day's file: row 4 repeats .*\(29\)$/);
});

// ---- comparisons

test('two files compared', () => {
  assert.equal(compareFiles(library, day, day, ring).headline, 'The same: all 8 entries are equal');
  const r = compareFiles(library, day, amendment, ring);
  assert.equal(r.headline, 'Different: 6 jobs only in the first file, 1 only in the second file, 2 in both files but different');
  assert.deepEqual([jobs(r.onlyFirst), jobs(r.onlySecond), jobs(r.differ)], [[4101, 4103, 4105, 4200, 4210, 4211], [4220], [4102, 4110]]);
  assert.match(compareFiles(library, day, day.slice(1), ring).headline, /^Refused: the second file:/);
  assert.match(compareFiles(library, refusedWith(30), day, ring).headline, /^Refused: the first file: row 6/);
});

test('in which field entries differ', () => {
  const station = compareFiles(library, day, stations, ring);
  assert.deepEqual(jobs(station.differ), [4101, 4102, 4103, 4105, 4200, 4210, 4211]);
  assert.ok(station.differ.every((d) => differing(d) === 'Station' && !d.nonceTwice));
  const unit = compareFiles(library, day, exchanged, ring);
  assert.deepEqual([unit.headline, unit.warnings], ['Different: 1 job in both files but different', ['The claimed unit of job 4103 differs.']]);
  assert.equal(differing(unit.differ[0]), 'Unit,Verdict');
  // A file of edition 1 has station 0 in every row, as its move to edition 2 has.
  const moved = compareFiles(library, day, library.toEdition2(exchanged).out, ring);
  assert.deepEqual(moved.differ.map((d) => [d.job, differing(d)]), [[4103, 'Unit,Verdict']]);
  assert.deepEqual(compareFiles(library, day, changing, ring).warnings, ['The unit of job 4103 differs.']);
  const resealed = compareFiles(library, day, library.reseal(day, ring).out, ring);
  assert.deepEqual(resealed.differ.map((d) => [d.job, differing(d)]), [[4105, 'Suite,Tag']]);
});

test('one key and nonce for two records', () => {
  const [a, b] = ['48.5', '84.5'].map((message) => sealed([{ job: 1, suite: 3, nonce: 5, message }]));
  const r = compareFiles(library, a, b, ring);
  assert.equal(r.differ[0].nonceTwice, true);
  assert.match(r.warnings.join(' '), /This must never happen/);
  assert.equal(compareFiles(library, a, b, null).differ[0].nonceTwice, false);
});

// ---- what is shown and saved

test('bytes as text or as a hex dump', () => {
  const utf8 = (s) => new TextEncoder().encode(s);
  assert.deepEqual(shown(new Uint8Array(0)), { form: 'empty', text: '' });
  assert.deepEqual(shown(utf8('12 N·m ± 3 %\nsecond line')), { form: 'text', text: '12 N·m ± 3 %\nsecond line' });
  assert.equal(shown(new Uint8Array([0x41, 0x0d])).text, `0000  41 0d${' '.repeat(42)}  A.`);
  for (const hidden of ['\u202e12.5', 'a\u200bb', '\u0007', '\ufeffx', '\u2028', '\u009b31m']) {
    assert.equal(shown(utf8(hidden)).form, 'hex', JSON.stringify(hidden));
  }
  assert.equal(shown(new Uint8Array([0xc3])).form, 'hex');
  assert.equal(shown(new Uint8Array(65536).fill(65)).text.length, 65536);
});

test('SHA-256', () => {
  for (const length of [0, 1, 3, 55, 56, 63, 64, 65, 119, 120, 991, 1048576]) {
    const bytes = crypto.createHash('shake256', { outputLength: length || 1 }).update(`${length}`).digest().subarray(0, length);
    assert.equal(sha256(new Uint8Array(bytes)), crypto.createHash('sha256').update(bytes).digest('hex'), `${length}`);
  }
});

const named = (name, bytes, keys = ring) => ({ name, sha256: sha256(bytes), size: bytes.length, report: inspect(library, bytes, keys) });
const context = {
  time: '2026-11-16T12:00:00.000Z', library: 'LIBRARY', ring: { name: 'ring.keys', size: 256 }, viewedIndex: 0,
  amendment: named('changing.shift', changing), amended: inspectAmended(library, changing, day, ring),
  second: named('exchanged.shift', exchanged), comparison: compareFiles(library, day, exchanged, ring),
};

test('saved reports are the expected files, byte for byte', () => {
  const files = [named('day.shift', day), named('exchanged.shift', exchanged), named('cut.shift', day.slice(0, 900))];
  const expected = (name) => text(read('web/tests/expected', name)).replaceAll('{{words 23}}', library.words(23));
  assert.equal(toJson(files, context), expected('report.json'));
  assert.equal(toCsv(files, context), expected('report.csv'));
});

test('the CSV follows an amendment', () => {
  const lines = toCsv([named('day.shift', day)], context).trim().split('\r\n').map((line) => line.split(','));
  const rows = lines.slice(1).map((cells) => [cells[0], cells[4], cells[6], cells.at(-1)]);
  assert.equal(rows.length, 10);
  assert.deepEqual(rows.filter(([, job]) => job === '4103'), [
    ['changing.shift', '4103', 'newton-metres', 'replaces'], ['day.shift', '4103', 'inch-pounds', 'replaced']]);
  assert.deepEqual(rows.at(-1), ['changing.shift', '4300', 'inch-pounds', 'adds']);
  // Of two files with one name, only the viewed one is amended.
  assert.equal(toCsv([named('day.shift', day), named('day.shift', day)], context).trim().split('\r\n').length, 1 + 10 + 8);
  const refusedAmendment = { ...context, amended: inspectAmended(library, day.slice(1), day, ring), amendment: { name: 'bad.shift', sha256: 'x' } };
  const other = toCsv([named('day.shift', day)], refusedAmendment).trim().split('\r\n');
  assert.equal(other.length, 1 + 8 + 1);
  assert.match(other.at(-1), /^bad\.shift,x,"?Refused: the amendment: /);
});

test('reports contain no message and no key; a cell is no formula', () => {
  const files = [{ ...named('=day.shift', day) }, named('x,y.shift', day.slice(1))];
  const json = toJson(files, context);
  assert.ok(!json.includes('bolt') && !json.includes('torque') && !json.includes(hex(ring.subarray(0, 16))));
  const csv = toCsv(files).split('\r\n');
  assert.ok(csv[1].startsWith("'=day.shift,") && csv[9].startsWith('"x,y.shift",') && !csv.join().includes('torque'));
});

test('several files in one line, and a ring among them', () => {
  const r = [day, altered(day, { 900: flip }), day.slice(1)].map((f) => inspect(library, f, ring));
  assert.equal(summaryOf(r), '3 files: 1 FORGED, 1 refused, 1 genuine');
  assert.deepEqual([looksLikeRing(library, ring), looksLikeRing(library, day)], [true, false]);
  const file256 = sealed([{ job: 1, suite: 1, message: 'x'.repeat(256 - 8 - 32 - 5 - 16) }]);
  assert.deepEqual([file256.length, looksLikeRing(library, file256)], [256, false]);
  assert.equal(inspect(library, sample('day.draft'), ring).status, 21);
  assert.equal(inspect(library, sealed([{ job: 4294967295, suite: 1 }]), ring).entries[0].job, 4294967295);
  assert.equal(rowAt(1), 40);
});

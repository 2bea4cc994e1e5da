// The files that the tests use: the samples, and files made from drafts with the library's sealer.
import fs from 'node:fs';
import path from 'node:path';
import { fileURLToPath } from 'node:url';
import { Library } from '../src/library.mjs';
import { Writer } from './writer.mjs';

export const ROOT = fileURLToPath(new URL('../..', import.meta.url));
export const read = (...names) => new Uint8Array(fs.readFileSync(path.join(ROOT, ...names)));
export const sample = (name) => read('samples', name);

// `library` has every C function, `reader` is the module that the page contains.
export const library = await Writer.load(read('target/web/whole.wasm'));
export const reader = await Library.load(read('target/web/page.wasm'));
export const ring = sample('ring.keys');
export const day = sample('day.shift');
export const stations = sample('stations.shift');
export const amendment = sample('amendment.shift');

const TAG_BYTES = { 1: 16, 2: 16, 3: 8, 4: 8, 5: 16, 6: 8 };
const ascii = (text) => new TextEncoder().encode(text);
export const text = (bytes) => new TextDecoder().decode(bytes);

function withBytes(row) {
  const message = row.message instanceof Uint8Array ? row.message : ascii(row.message ?? '');
  const data = ascii(row.data ?? '');
  return { ...row, message, data, length: 5 + data.length + message.length + TAG_BYTES[row.suite] };
}

// A draft (docs/FORMAT.md) of rows { job, suite, key, unit, data, message, nonce }.
export function draftOf(rows) {
  const entries = rows.map(withBytes);
  const table = 8 + 32 * rows.length;
  const out = new Uint8Array(entries.reduce((sum, e) => sum + e.length, table));
  const view = new DataView(out.buffer);
  view.setUint16(2, rows.length, true);
  view.setUint32(4, out.length, true);
  let body = table;
  entries.forEach((e, i) => {
    const at = rowAt(i);
    view.setUint32(at, e.job, true);
    out.set([e.suite, e.key ?? 0], at + 4);
    view.setUint16(at + 6, 5 + e.data.length, true);
    view.setUint32(at + 8, body, true);
    view.setUint32(at + 12, e.message.length, true);
    view.setUint32(at + 16, e.nonce ?? e.job, true);
    view.setUint32(body, e.job, true);
    out.set([e.unit ?? 1, ...e.data], body + 4);
    out.set(e.message, body + 5 + e.data.length);
    body += e.length;
  });
  return out;
}

// The draft of the rows, sealed under the sample ring.
export function sealed(rows) {
  const { status, row, out } = library.sealFile(draftOf(rows), ring);
  if (status !== 0) throw new Error(`sealing returned ${status}, row ${row}`);
  return out;
}

// n entries over all suites that seal, every seventh in inch-pounds.
export const many = (n, message = 'torque 48.5 48.7 48.4') => sealed(Array.from({ length: n }, (_, i) => ({
  job: 5000 + 3 * i, suite: [1, 2, 3, 5, 6][i % 5], key: i % 16, unit: i % 7 === 3 ? 2 : 1,
  data: `line ${1 + (i % 4)}`, message: `gearbox ${5000 + 3 * i} ${message}`,
})));

// 512 entries in a file of exactly 1,048,576 bytes.
export function longest() {
  const rest = 1048576 - many(512, '').length;
  const each = Math.floor(rest / 512);
  const rows = Array.from({ length: 512 }, (_, i) => ({
    job: 5000 + 3 * i, suite: [1, 2, 3, 5, 6][i % 5], key: i % 16, unit: i % 7 === 3 ? 2 : 1, data: `line ${1 + (i % 4)}`,
    message: `gearbox ${5000 + 3 * i} ${'x'.repeat(each + (i < rest - 512 * each ? 1 : 0))}`,
  }));
  return sealed(rows);
}

// The bytes with some of them changed: { offset: value or function of the old value }.
export function altered(bytes, changes) {
  const out = bytes.slice();
  for (const [at, to] of Object.entries(changes)) out[at] = typeof to === 'function' ? to(out[at]) : to;
  return out;
}

export const flip = (b) => b ^ 1;

// Offsets in a file of edition 1.
export function rowAt(i) { return 8 + 32 * i; }
export const bodyAt = (file, i) => new DataView(file.buffer).getUint32(rowAt(i) + 8, true);
export const bodyOf = (i) => bodyAt(day, i);

// Files for each status of the full check: [status, row, file].
export const refused = [
  [20, 0, new Uint8Array(0)],
  [20, 0, day.slice(0, 7)],
  [20, 0, new Uint8Array(1048577)],
  [21, 0, sample('day.draft')],
  [21, 0, altered(day, { 0: 3 })],
  [22, 0, altered(day, { 2: 1, 3: 2 })], // 513 rows
  [23, 0, day.slice(0, day.length - 1)],
  [23, 0, new Uint8Array([...day, 0])],
  [24, 0, altered(day, { 2: 31 })], // 31 rows take 1,000 bytes
  [25, 1, altered(day, { [rowAt(1)]: 5 })], // job 4101 again
  [26, 2, altered(day, { [rowAt(2) + 4]: 7 })],
  [26, 5, altered(day, { [rowAt(5) + 5]: 16 })],
  [27, 1, altered(day, { [rowAt(1) + 6]: 4 })],
  [27, 0, altered(day, { [rowAt(0) + 14]: 2 })],
  [28, 0, altered(day, { [rowAt(0) + 8]: flip })],
  [28, 3, altered(day, { [rowAt(3) + 8]: flip })],
  [28, 7, altered(day, { [rowAt(7) + 12]: 0xff })],
  [34, 2, altered(day, { [rowAt(2) + 31]: 1 })],
  // Row 4 has suite 3 and key number 2, as row 2 has: it gets row 2's nonce.
  [29, 4, altered(day, Object.fromEntries(Array.from({ length: 15 }, (_, i) => [rowAt(4) + 16 + i, day[rowAt(2) + 16 + i]])))],
  [30, 6, altered(day, { [bodyOf(6)]: flip })], // another job number in the associated data
  [30, 6, altered(day, { [bodyOf(6) + 4]: 3 })], // no such unit
  [31, 0, new Uint8Array([1, 0, 0, 0, 9, 0, 0, 0, 0])],
  [31, 0, altered(new Uint8Array([...day, 0]), { 4: (day.length + 1) & 255, 5: (day.length + 1) >> 8 })],
];

export const refusedWith = (status) => refused.find(([s]) => s === status)[2];

// A changed unit (job 4103: inch-pounds to newton-metres), and one that an amendment changes.
export const exchanged = altered(day, { [bodyOf(2) + 4]: 1 });
export const changing = sealed([
  { job: 4103, suite: 3, key: 9, unit: 1, data: 'quality', message: 'gearbox 4103 bolt 1/4-28 count 6 torque 12.0' },
  { job: 4300, suite: 5, key: 9, unit: 2, data: 'quality', message: 'gearbox 4300 torque 210' },
]);

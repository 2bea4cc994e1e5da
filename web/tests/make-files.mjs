// node make-files.mjs DIR: writes the files that the browser tests choose.
import fs from 'node:fs';
import path from 'node:path';
import {
  altered, bodyAt, bodyOf, changing, day, exchanged, flip, longest, many, refused, refusedWith, ring, sample, sealed,
} from './files.mjs';

const dir = process.argv[2];
fs.mkdirSync(dir, { recursive: true });
const write = (name, bytes) => fs.writeFileSync(path.join(dir, name), bytes);

for (const name of ['day.shift', 'stations.shift', 'amendment.shift', 'day.draft', 'ring.keys']) write(name, sample(name));
write('forged.shift', altered(day, { [bodyOf(1) + 30]: flip, [bodyOf(6) + 30]: flip }));
write('exchanged.shift', exchanged);
write('changing.shift', changing);
write('empty.shift', new Uint8Array([1, 0, 0, 0, 8, 0, 0, 0]));
write('cut.shift', day.slice(0, 900));
write('repeated-nonce.shift', refusedWith(29));
write('short.keys', ring.slice(0, 100));
write('other.keys', new Uint8Array(256).fill(9));
for (const [status, , bytes] of refused) if (bytes.length < 5000) write(`refused-${status}.shift`, bytes);
write('too-long.shift', new Uint8Array(2000000));

const big = many(512);
write('many.shift', big);
write('many-forged.shift', altered(big, { [bodyAt(big, 300) + 20]: flip }));
const long = longest();
write('longest.shift', long);
write('longest-forged.shift', altered(long, { [bodyAt(long, 300) + 20]: flip }));

// Data and message that look like markup, a message that is not text, one in UTF-8, and the highest job number.
const html = '<img src=x onerror=document.title=1>';
write('<b>markup.shift', sealed([
  { job: 1, suite: 1, data: html, message: html },
  { job: 2, suite: 3, unit: 2, message: Uint8Array.from({ length: 300 }, (_, i) => i & 255) },
  { job: 3, suite: 2, message: new TextEncoder().encode('12 N·m ± 3 %\nsecond line') },
  { job: 4294967295, suite: 6, key: 15, unit: 2, message: '' }]));

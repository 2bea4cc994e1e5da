// What is chosen on the page and what was found in it. Nothing is stored: it ends with the page.
import { READ_BYTES_MAX, USE_NOTHING, inspect, looksLikeRing } from './inspect.mjs';
import { inspectAmended } from './amend.mjs';
import { compareFiles } from './compare.mjs';
import { sha256 } from './sha256.mjs';

export const SLOTS = ['files', 'ring', 'amendment', 'second'];

// A chosen file is { name, size, bytes, sha256 }; a shift file also has its report.
export const state = {
  library: null,
  files: [],
  viewedIndex: 0,
  ring: null,
  amendment: null,
  second: null,
  amended: null, // the report on the viewed file with the amendment
  comparison: null, // of the viewed file with the second
  time: null, // of the last inspection
  notice: '',
  tab: 'entries',
};

export const viewed = () => state.files[state.viewedIndex];
export const ringBytes = () => state.ring?.bytes ?? null;
export const viewedReport = () => state.amended ?? viewed()?.report;

// Reads a file; of one that is longer than any shift file, only as much as the library needs to refuse it.
async function readFile(file) {
  const whole = file.size <= READ_BYTES_MAX;
  const bytes = new Uint8Array(await (whole ? file : file.slice(0, READ_BYTES_MAX)).arrayBuffer());
  return { name: file.name, size: file.size, bytes, sha256: whole ? sha256(bytes) : null };
}

// The result of `work`; after an error a report without a verdict.
function guarded(work) {
  try {
    return work();
  } catch (error) {
    return {
      verdict: 'broken', headline: 'No verdict: the inspection failed',
      warnings: [USE_NOTHING, `Please report this: ${error.message}`], notes: [],
      status: null, row: 0, size: 0, edition: null, entries: [], counts: { entries: 0, newtonMetres: 0, inchPounds: 0 },
      onlyFirst: [], onlySecond: [], differ: [],
    };
  }
}

export function inspectViewed() {
  const file = viewed();
  const { library, amendment, second } = state;
  state.amended = file && amendment
    ? guarded(() => inspectAmended(library, amendment.bytes, file.bytes, ringBytes(), [amendment.size, file.size])) : null;
  state.comparison = file && second
    ? guarded(() => compareFiles(library, file.bytes, second.bytes, ringBytes(), [file.size, second.size])) : null;
}

function inspectAll() {
  state.time = new Date();
  for (const file of state.files) file.report = guarded(() => inspect(state.library, file.bytes, ringBytes(), file.size));
  inspectViewed();
}

// Sets the key ring, or removes it (null), and overwrites the old one.
function setRing(ring) {
  state.ring?.bytes.fill(0);
  state.ring = ring;
}

// Takes shift files, and key rings among them. Returns sentences for the notice.
function takeFiles(read) {
  const rings = read.filter((f) => looksLikeRing(state.library, f.bytes));
  const files = read.filter((f) => !rings.includes(f));
  if (rings.length) setRing(rings.at(-1));
  if (files.length) Object.assign(state, { files, viewedIndex: 0 });
  return rings.length ? [`${state.ring.name} has the length of a key ring and is no shift file: it is used as the key ring.`] : [];
}

function takeOne(slot, read) {
  if (slot === 'ring') setRing(read[0]); else [state[slot]] = read;
  if (slot === 'second') state.tab = 'comparison';
  return read.length > 1 ? [`Only ${read[0].name} is used: there is room for one file here.`] : [];
}

// Of two choices for one slot the later one counts, also if its files are read sooner.
const choices = Object.fromEntries(SLOTS.map((slot) => [slot, 0]));

// Reads the files chosen for a slot and inspects everything again. Returns false if a later choice has replaced this one.
export async function take(slot, list) {
  const chosen = [...list];
  if (chosen.length === 0) return false;
  choices[slot] += 1;
  const choice = choices[slot];
  const [read, sentences] = [[], []];
  for (const file of chosen) {
    try {
      read.push(await readFile(file));
    } catch {
      sentences.push(`${file.name} cannot be read.`);
    }
  }
  if (choice !== choices[slot]) return false;
  if (read.length) sentences.push(...(slot === 'files' ? takeFiles(read) : takeOne(slot, read)));
  state.notice = sentences.join(' ');
  inspectAll();
  return true;
}

export function remove(slot) {
  choices[slot] += 1;
  if (slot === 'files') Object.assign(state, { files: [], viewedIndex: 0 });
  else if (slot === 'ring') setRing(null);
  else state[slot] = null;
  if (slot === 'second') state.tab = 'entries';
  state.notice = '';
  inspectAll();
}

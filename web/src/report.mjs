// Saved reports, as JSON and CSV. They contain no message and no key.
import { TRUST, UNITS, hex, onOneLine, suiteName } from './text.mjs';

function plainEntry(e) {
  return {
    row: e.row, job: e.job, station: e.station,
    unit: e.unit, unitName: UNITS[e.unit].name, unitIs: TRUST[e.verdict],
    suite: e.suite, suiteName: suiteName(e.suite), key: e.key, nonce: hex(e.nonce),
    data: onOneLine(e.data), messageLength: e.messageLength,
    verdict: e.verdict, status: e.status,
    ...(e.file ? { file: e.file, standing: e.standing } : {}),
  };
}

const plainReport = ({ verdict, headline, status, row, size, edition, counts, warnings, notes, entries }) => (
  { verdict, headline, status, row, size, edition, counts, warnings, notes, entries: entries.map(plainEntry) });

function plainComparison({ verdict, headline, status, file, row, warnings, notes, onlyFirst, onlySecond, differ }, first, second) {
  const names = { first: first.name, firstSha256: first.sha256, second: second.name, secondSha256: second.sha256 };
  const refused = { ...names, verdict, headline, status, file, row, warnings, notes };
  if (status !== 0) return refused;
  const fields = (d) => d.fields.filter((f) => !f.same).map((f) => f.name);
  return {
    ...refused, onlyFirst: onlyFirst.map(plainEntry), onlySecond: onlySecond.map(plainEntry),
    differ: differ.map((d) => ({ job: d.job, differs: fields(d), first: plainEntry(d.first), second: plainEntry(d.second) })),
  };
}

// files: [{ name, sha256, report }]; context: { time, library, ring, viewedIndex, amendment, amended, second, comparison }, where
// viewedIndex is the index of the file that the amendment and the comparison belong to.
export function toJson(files, context) {
  const { time, library, ring, amendment, amended, second, comparison } = context;
  const viewed = files[context.viewedIndex];
  const out = {
    about: 'Report on shift files. Rows are counted from 0. Every verdict is a status of the proved library.',
    time, library,
    ring: ring ? { name: ring.name, length: ring.size } : null,
    files: files.map(({ name, sha256, report }) => ({ name, sha256, ...plainReport(report) })),
  };
  if (amended) {
    const names = { file: viewed.name, fileSha256: viewed.sha256, amendment: amendment.name, amendmentSha256: amendment.sha256 };
    out.amended = { ...names, ...plainReport(amended) };
  }
  if (comparison) out.comparison = plainComparison(comparison, viewed, second);
  return JSON.stringify(out, null, 2) + '\n';
}

// A cell of a CSV line. Text that begins like a formula gets an apostrophe, since a spreadsheet would evaluate it.
function csvCell(value) {
  const text = value === null || value === undefined ? '' : String(value);
  const safe = typeof value === 'string' && /^[=+\-@\t\r]/.test(text) ? `'${text}` : text;
  return /[",\n\r]/.test(safe) ? `"${safe.replace(/"/g, '""')}"` : safe;
}

const COLUMNS_CSV = ['file', 'sha256', 'file_verdict', 'row', 'job', 'station', 'unit', 'unit_is', 'suite', 'suite_name', 'key',
  'data', 'message_length', 'verdict', 'status', 'standing'];

function entryLine({ name, sha256 }, headline, entry) {
  const e = plainEntry(entry);
  return [name, sha256, headline, e.row, e.job, e.station, e.unitName, e.unitIs, e.suite, e.suiteName, e.key, e.data,
    e.messageLength, e.verdict, e.status, e.standing ?? ''];
}

const fileLine = ({ name, sha256 }, { headline, verdict, status }) => [name, sha256, headline, ...Array(10).fill(''), verdict, status, ''];

// The CSV lines of a file: one for each entry; one for a file that is refused or empty.
function fileLines(file) {
  const { report } = file;
  if (report.entries.length === 0) return [fileLine(file, report)];
  return report.entries.map((e) => entryLine(file, report.headline, e));
}

// The CSV lines of both files with each entry's standing; if there are no entries, the day's file alone and the reason.
function amendedLines(day, { amendment, amended }) {
  if (amended.entries.length === 0) return [...fileLines(day), fileLine(amendment, amended)];
  return amended.entries.map((e) => entryLine(e.file === 'day' ? day : amendment, amended.headline, e));
}

// files and context as in toJson. The lines of the viewed file follow its amendment.
export function toCsv(files, context = {}) {
  const isAmended = (i) => context.amended && i === context.viewedIndex;
  const lines = files.flatMap((file, i) => (isAmended(i) ? amendedLines(file, context) : fileLines(file)));
  return [COLUMNS_CSV, ...lines].map((line) => line.map(csvCell).join(',')).join('\r\n') + '\r\n';
}

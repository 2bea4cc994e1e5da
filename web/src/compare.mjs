// Two files compared: which jobs differ, and in which fields.
import { inspect, openEntry, refusalLine, refusalNotes } from './inspect.mjs';
import { bytesWord, hex, onOneLine, suiteName } from './text.mjs';

const same = (a, b) => a.length === b.length && a.every((x, i) => x === b[i]);
const orEmpty = (bytes) => onOneLine(bytes) || '(empty)';

function messageField(a, b, [openedA, openedB]) {
  if (openedA.message && openedB.message) {
    const [first, second] = [orEmpty(openedA.message), orEmpty(openedB.message)];
    return { name: 'Message', first, second, same: same(openedA.message, openedB.message), kind: 'text' };
  }
  return { name: 'Sealed message', first: bytesWord(a.text.length), second: bytesWord(b.text.length), same: same(a.text, b.text), kind: 'text' };
}

// The fields of two entries of one job: [{ name, first, second, same, kind }]. `same` compares bytes, not their display.
function fieldsOf(a, b, opened) {
  const value = (name, of, kind = 'text') => ({ name, first: of(a), second: of(b), same: of(a) === of(b), kind });
  const bytes = (name, of, show, kind) => ({ name, first: show(of(a)), second: show(of(b)), same: same(of(a), of(b)), kind });
  const station = (e) => (e.station === null ? 'none (counts as 0)' : String(e.station));
  return [
    value('Unit', (e) => e.unit, 'unit'),
    messageField(a, b, opened),
    bytes('Data', (e) => e.data, orEmpty, 'text'),
    { ...value('Station', station), same: (a.station ?? 0) === (b.station ?? 0) },
    value('Suite', (e) => `${e.suite} ${suiteName(e.suite)}`),
    value('Key number', (e) => String(e.key)),
    bytes('Nonce', (e) => e.nonce, hex, 'code'),
    bytes('Tag', (e) => e.tag, hex, 'code'),
    value('Verdict', (e) => e.verdict, 'verdict'),
  ];
}

// One job that differs. nonceTwice: both tags are right and the records differ, so one key and nonce sealed two records.
function difference(job, x, y, opened) {
  const sameNonce = x.suite === y.suite && x.key === y.key && same(x.nonce, y.nonce);
  const sameRecord = same(x.data, y.data) && x.unit === y.unit && same(x.text, y.text);
  const genuine = x.verdict === 'genuine' && y.verdict === 'genuine';
  return {
    job, first: x, second: y, fields: fieldsOf(x, y, opened), genuine,
    unitDiffers: x.unit !== y.unit,
    nonceTwice: sameNonce && !sameRecord && genuine,
  };
}

function warningsOf(differ) {
  const jobs = (test) => differ.filter(test).map((d) => d.job).join(', ');
  const units = jobs((d) => d.unitDiffers && d.genuine);
  const claims = jobs((d) => d.unitDiffers && !d.genuine);
  const twice = jobs((d) => d.nonceTwice);
  return [
    ...(units ? [`The unit of job ${units} differs.`] : []),
    ...(claims ? [`The claimed unit of job ${claims} differs.`] : []),
    ...(twice ? [`Job ${twice}: two different records are sealed under one suite, key number and nonce. This must never happen.`] : []),
  ];
}

const NOTE = 'Compared are suite, key number, station, nonce, data, sealed message and tag of each job. Offsets do not count.';

function headlineOf({ onlyFirst, onlySecond, differ }, entries) {
  const noun = (i, n) => (i > 0 ? '' : n === 1 ? ' job' : ' jobs'); // once, at the first count
  const parts = [[onlyFirst, 'only in the first file'], [onlySecond, 'only in the second file'], [differ, 'in both files but different']]
    .filter(([list]) => list.length > 0).map(([list, words], i) => `${list.length}${noun(i, list.length)} ${words}`);
  if (parts.length > 0) return `Different: ${parts.join(', ')}`;
  if (entries === 0) return 'The same: both files have no entries';
  return `The same: ${entries === 1 ? 'the only entry is' : `all ${entries} entries are`} equal`;
}

// Compares two files: { verdict, headline, warnings, notes, status, file, row, onlyFirst, onlySecond, differ, reports }.
// verdict is 'same', 'different' or 'refused'.
export function compareFiles(library, first, second, ring, sizes = [first.length, second.length]) {
  const answer = library.compare(first, second);
  if (answer.status !== 0) {
    const [whose, bytes, size] = answer.file === 1 ? ['the first file', first, sizes[0]] : ['the second file', second, sizes[1]];
    const headline = `Refused: ${whose}: ${refusalLine(library, answer)}`;
    return { ...answer, verdict: 'refused', headline, warnings: [], notes: refusalNotes(library, bytes, answer, size) };
  }
  const reports = { first: inspect(library, first, ring), second: inspect(library, second, ring) };
  const [x, y] = [reports.first, reports.second].map((r) => new Map(r.entries.map((e) => [e.job, e])));
  const differ = answer.differ.map((job) => difference(job, x.get(job), y.get(job),
    [openEntry(library, first, ring, x.get(job)), openEntry(library, second, ring, y.get(job))]));
  const headline = headlineOf(answer, reports.first.counts.entries);
  return {
    ...answer, verdict: headline.startsWith('The same') ? 'same' : 'different', headline, warnings: warningsOf(differ), notes: [NOTE],
    differ, onlyFirst: answer.onlyFirst.map((job) => x.get(job)), onlySecond: answer.onlySecond.map((job) => y.get(job)), reports,
  };
}

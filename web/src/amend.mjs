// A day's file with its amendment: which entries are current, and what the amendment replaces.
import { blankReport, count, countsOf, inspect, refusalLine, verdictOf, wordsOf } from './inspect.mjs';

// Opens the current entry of a job: { status, words, message }; the message is null unless the status is 0.
export function openCurrent(library, amendment, day, ring, entry) {
  if (!ring) return { status: null, words: 'no key ring', message: null };
  const { status, row, message } = library.openAmended(amendment, day, ring, entry.job, entry.messageLength);
  return { status, words: wordsOf(library, status, row), message };
}

const byJob = (report) => new Map(report.entries.map((e) => [e.job, e]));

// The entries of both files by job, each with
//   file      'day' or 'amendment'
//   standing  'current' (the day's, not amended), 'replaces' or 'adds' (the amendment's), 'replaced' (the day's, amended)
//   other     of 'replaces' and 'replaced': the entry of the other file
function standingEntries(library, amendment, day, own) {
  const [old, now] = [byJob(own.day), byJob(own.amendment)];
  const jobs = [...new Set([...old.keys(), ...now.keys()])].sort((a, b) => a - b);
  return library.amended(amendment, day, jobs).flatMap(({ status, file, row }, i) => {
    const [before, after] = [old.get(jobs[i]), now.get(jobs[i])];
    const current = file === 1 ? after : before;
    if (status !== 0 || current?.row !== row) throw new Error(`shift_amended finds job ${jobs[i]} elsewhere`);
    if (file === 2) return [{ ...before, file: 'day', standing: 'current', other: null }];
    const entry = { ...after, file: 'amendment', standing: before ? 'replaces' : 'adds', other: before ?? null };
    return before ? [entry, { ...before, file: 'day', standing: 'replaced', other: after }] : [entry];
  });
}

const genuine = (e) => e.verdict === 'genuine' && e.other.verdict === 'genuine';

// The amendment changes a unit if both tags are right; else it only claims to.
export const changesUnit = (e) => e.standing === 'replaces' && e.unit !== e.other.unit;

function unitWarnings(entries) {
  const changed = entries.filter(changesUnit);
  const jobs = (list) => list.map((e) => e.job).join(', ');
  const [proven, claimed] = [changed.filter(genuine), changed.filter((e) => !genuine(e))];
  return [
    ...(proven.length ? [`The amendment changes the unit of job ${jobs(proven)}.`] : []),
    ...(claimed.length ? [`The amendment claims to change the unit of job ${jobs(claimed)}.`] : []),
  ];
}

function refusedReport(library, report, refusal, own) {
  const [whose, notes] = refusal.file === 1 ? ['the amendment', own.amendment.notes] : ["the day's file", own.day.notes];
  const { status, row } = refusal;
  return {
    ...report, verdict: 'refused', status, row, headline: `Refused: ${whose}: ${refusalLine(library, refusal)}`,
    warnings: ['Use nothing of these two files: which entries are current is unknown.'], notes,
  };
}

function standingNote(standing) {
  const { current, replaces, adds } = standing;
  const jobs = current + replaces + adds;
  return `With the amendment there ${jobs === 1 ? 'is 1 job' : `are ${jobs} jobs`}: ${current} unchanged, ${replaces} replaced, ${adds} added.`;
}

// The verdict on a day's file and its amendment; the report is that of `inspect`, with the entries of standingEntries.
export function inspectAmended(library, amendment, day, ring, sizes = [amendment.length, day.length]) {
  const own = { amendment: inspect(library, amendment, ring, sizes[0]), day: inspect(library, day, ring, sizes[1]) };
  const report = { ...blankReport(sizes[1]), edition: own.day.edition, amended: true };
  const [refusal] = library.amended(amendment, day, [0]);
  if (refusal.file !== 0 && refusal.status !== 0) return refusedReport(library, report, refusal, own);

  const entries = standingEntries(library, amendment, day, own);
  if (entries.length === 0) {
    return { ...report, verdict: 'empty', headline: 'Empty: both files are well formed, with no entries', notes: own.day.notes };
  }
  const by = (standing) => count(entries, (e) => e.standing === standing);
  const standing = { current: by('current'), replaces: by('replaces'), adds: by('adds') };
  const unverified = [own.day, own.amendment].find((r) => r.verdict === 'unverified');
  const { verdict, headline, warnings, notes, status } = unverified
    ? { ...unverified, notes: unverified.notes.slice(1) } : verdictOf(entries, ' of both files');
  return {
    ...report, entries, counts: countsOf(entries), standing, unitChanged: entries.filter(changesUnit).map((e) => e.job),
    verdict, headline, status: status ?? 0, warnings: [...unitWarnings(entries), ...warnings], notes: [standingNote(standing), ...notes],
  };
}

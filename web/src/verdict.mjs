// The upper part of the page: the slots for files, the summary of several files, the verdict.
import { summaryOf } from './inspect.mjs';
import { bytesWord, grouped } from './text.mjs';
import { $, el, factRows, icon, noteItems, unitMark, warningItems } from './parts.mjs';
import { inspectViewed, state, viewed, viewedReport } from './state.mjs';
import { RING_BYTES } from './library.mjs';

const IDLE = {
  files: 'Drop one or more files here. The key ring may be among them.',
  ring: 'Needed to verify and to open',
  amendment: 'Optional: replaces some jobs',
  second: 'Optional: a second shift file',
};

const wrongRing = () => state.ring !== null && state.ring.size !== RING_BYTES;

// Shows what is chosen in each slot.
export function showSlots() {
  document.body.classList.toggle('started', state.files.length > 0);
  const chosen = {
    files: state.files.length > 1 ? `${state.files.length} files` : viewed()?.name,
    ring: wrongRing() ? `${state.ring.name}: ${bytesWord(state.ring.size)}, not ${RING_BYTES}` : state.ring?.name,
    amendment: state.amendment?.name,
    second: state.second?.name,
  };
  for (const [slot, words] of Object.entries(chosen)) {
    $(`slot-${slot}-state`).textContent = words || IDLE[slot];
    $(`slot-${slot}-state`).title = words || '';
    $(`remove-${slot}`).hidden = !words;
    document.querySelector(`[data-slot=${slot}]`).classList.toggle('filled', Boolean(words));
  }
  document.querySelector('[data-slot=ring]').classList.toggle('wrong', wrongRing());
  $('notice').textContent = state.notice;
  $('notice').hidden = !state.notice;
}

// How many entries are in inch-pounds, verified and claimed.
function inchCounts(report) {
  const inch = report.entries.filter((e) => e.unit === 2);
  const verified = inch.filter((e) => e.verdict === 'genuine').length;
  const badge = (n, words, kind) => (n ? el('span', { class: `summary-inch ${kind}` }, `${n} ${words}`) : null);
  return el('span', { class: 'summary-units' }, badge(verified, 'in·lb', 'verified'), badge(inch.length - verified, 'in·lb claimed', 'claimed'));
}

function summaryItem(file, i, show) {
  const view = () => { state.viewedIndex = i; inspectViewed(); show(); };
  return el('li', {}, el('button', {
    type: 'button', class: `summary-file ${file.report.verdict}`, 'aria-current': i === state.viewedIndex ? 'true' : null, on: { click: view },
  }, icon(file.report.verdict), el('span', { class: 'summary-name' }, file.name), el('span', { class: 'summary-words' }, file.report.headline),
  inchCounts(file.report)));
}

// Lists several files with their verdicts; `show` draws the page again.
export function showSummary(show) {
  const several = state.files.length > 1;
  $('summary').hidden = !several;
  if (!several) return;
  $('summary-line').textContent = summaryOf(state.files.map((f) => f.report));
  $('summary-files').replaceChildren(...state.files.map((file, i) => summaryItem(file, i, show)));
}

const showTime = (time) => time.toLocaleString('en-GB', { dateStyle: 'long', timeStyle: 'medium' });

const digestWords = (file) => file.sha256 ?? 'not computed: the file is longer than any shift file';

function factsOfFile(file, { edition }) {
  return factRows([
    ['Length', bytesWord(file.size)],
    ['SHA-256', digestWords(file), 'code'],
    ['Edition', edition === null ? null : `${edition}, ${edition === 2 ? 'with' : 'without'} stations`],
    ['Key ring', state.ring ? state.ring.name : 'none'],
    ['Amendment', state.amended ? state.amendment.name : null],
    ['its SHA-256', state.amended ? digestWords(state.amendment) : null, 'code'],
    ['Second file', state.comparison ? state.second.name : null],
    ['its SHA-256', state.comparison ? digestWords(state.second) : null, 'code'],
    ['Inspected', showTime(state.time)],
    ['Library', $('library').textContent, 'print-only code'],
  ]);
}

// How many entries have each unit, by what is known of it. Replaced entries are not counted.
function unitCounts(report) {
  const current = report.entries.filter((e) => e.standing !== 'replaced');
  return ['genuine', 'unverified', 'forged'].flatMap((verdict) => [1, 2].map((unit) => {
    const n = current.filter((e) => e.unit === unit && e.verdict === verdict).length;
    return n > 0 ? el('span', { class: 'unit-count' }, el('b', {}, grouped(n)), unitMark(unit, verdict)) : null;
  })).filter(Boolean);
}

function fileWords(file) {
  if (!file) return '';
  return state.amended ? `${file.name}, amended by ${state.amendment.name}` : file.name;
}

// Stands above the table on every printed page.
const paperHead = (file, { headline }) => `${fileWords(file)}: ${headline}. SHA-256 ${digestWords(file)}`;

// Shows the verdict on the viewed file.
export function showVerdict() {
  const [file, report] = [viewed(), viewedReport()];
  $('verdict').dataset.verdict = report?.verdict ?? 'none';
  $('verdict-more').hidden = !report;
  $('legend').hidden = Boolean(report);
  $('headline').textContent = report?.headline ?? 'Choose a shift file to begin';
  $('verdict-file').textContent = fileWords(file);
  $('verdict-icon').replaceChildren(...(report ? [icon(report.verdict, 'huge')] : []));
  document.title = report ? `${report.headline} - ${file.name}` : 'Shift file inspector';
  if (!report) return;
  $('units').replaceChildren(...unitCounts(report));
  $('warnings').replaceChildren(...warningItems(report.warnings));
  $('notes').replaceChildren(...noteItems(report.notes));
  $('facts').replaceChildren(...factsOfFile(file, report));
  $('paper-head').textContent = paperHead(file, report);
}

// The comparison of two files, and the tabs between entries and comparison.
import { $, el, heading, icon, noteItems, unitMark, verdictMark, warningItems } from './parts.mjs';
import { state, viewed, viewedReport } from './state.mjs';

const TABS = ['entries', 'comparison'];
const OPEN_MAX = 8; // up to this many differences are shown open

function fieldCell(field, value, verdict) {
  const shows = { unit: () => unitMark(value, verdict), verdict: () => verdictMark(value) };
  return el('td', { class: `kind-${field.kind}` }, shows[field.kind]?.() ?? value);
}

const fieldRow = (d, f) => el('tr', { class: f.same ? 'equal' : 'unequal' },
  el('th', { scope: 'row' }, f.name, el('span', { class: 'equal-word' }, f.same ? 'same' : 'differs')),
  fieldCell(f, f.first, d.first.verdict), fieldCell(f, f.second, d.second.verdict));

const equalRow = (fields) => el('tr', { class: 'equal' }, el('th', { scope: 'row' }, 'The same'),
  el('td', { colspan: '2' }, el('ul', { class: 'equal-list' },
    fields.map((f) => el('li', {}, el('span', {}, f.name), ' ', el('span', { class: `kind-${f.kind}` }, f.first))))));

// A table of unit, verdict and the fields that differ, side by side, with one row that names the equal fields.
function besideTable(d) {
  const beside = d.fields.filter((f) => !f.same || f.kind === 'unit' || f.kind === 'verdict');
  const equal = d.fields.filter((f) => !beside.includes(f));
  const head = ['Field', viewed().name, state.second.name].map((name) => el('th', { scope: 'col' }, name));
  return el('table', { class: 'beside' }, el('thead', {}, el('tr', {}, head)),
    el('tbody', {}, beside.map((f) => fieldRow(d, f)), equal.length ? equalRow(equal) : null));
}

// One job that differs. Its table is built when it is first opened.
function differenceBlock(d, open) {
  const names = d.fields.filter((f) => !f.same).map((f) => f.name.toLowerCase());
  const flag = (is, words) => (is ? el('span', { class: 'flag' }, words) : null);
  const details = el('details', { class: `differ${d.unitDiffers ? ' unit-differs' : ''}`, open },
    el('summary', {}, el('b', {}, `Job ${d.job}`), el('span', {}, `differs in ${names.join(', ')}`),
      flag(d.unitDiffers, d.genuine ? 'unit differs' : 'claimed unit differs'), flag(d.nonceTwice, 'nonce used twice')));
  const fill = () => { if (details.open && !details.querySelector('table')) details.append(besideTable(d)); };
  details.addEventListener('toggle', fill);
  fill();
  return details;
}

function differences(differ) {
  if (differ.length === 0) return null;
  return el('section', { class: 'differs' }, heading('In both, but different', String(differ.length)),
    differ.map((d) => differenceBlock(d, differ.length <= OPEN_MAX)));
}

function onlyBlock(title, entries) {
  if (entries.length === 0) return null;
  const items = entries.map((e) => el('li', {}, el('b', {}, String(e.job)), unitMark(e.unit, e.verdict), verdictMark(e.verdict)));
  return el('section', { class: 'only' }, heading(title, String(entries.length)), el('ul', {}, items));
}

const sideLine = (which, name, report) => el('p', { class: 'side' }, `${which}: ${name}`,
  report && [' ', el('span', { class: `mark ${report.verdict}` }, icon(report.verdict), report.headline)]);

function comparisonParts(c) {
  const line = el('div', { class: 'comparison-line', 'data-verdict': c.verdict, role: 'status' }, icon(c.verdict),
    el('div', {}, el('p', { class: 'comparison-headline' }, c.headline),
      sideLine('First', viewed().name, c.reports?.first), sideLine('Second', state.second.name, c.reports?.second)));
  return [
    line,
    c.warnings.length ? el('ul', { class: 'warnings' }, warningItems(c.warnings)) : null,
    el('ul', { class: 'notes' }, noteItems(c.notes)),
    ...(c.status === 0 ? [differences(c.differ), onlyBlock('Only in the first', c.onlyFirst), onlyBlock('Only in the second', c.onlySecond)] : []),
  ].filter(Boolean);
}

function showTabs(c) {
  $('tabs').hidden = !c;
  for (const tab of TABS) {
    const mine = state.tab === tab;
    $(`tab-${tab}`).setAttribute('aria-selected', String(mine));
    $(`tab-${tab}`).tabIndex = mine ? 0 : -1;
  }
  if (!c) return;
  const total = c.onlyFirst.length + c.onlySecond.length + c.differ.length;
  $('tab-entries').textContent = `Entries (${viewedReport().entries.length})`;
  $('tab-comparison').textContent = `Comparison (${{ refused: 'refused', broken: 'no verdict' }[c.verdict] ?? total})`;
}

export function showComparison() {
  const c = state.comparison;
  if (!c) state.tab = 'entries';
  showTabs(c);
  $('panel-comparison').hidden = !c || state.tab !== 'comparison';
  $('panel-comparison').replaceChildren(...(c ? comparisonParts(c) : []));
}

function showTab(tab) {
  state.tab = tab;
  showTabs(state.comparison);
  $('panel-comparison').hidden = tab !== 'comparison';
  $('panel-entries').hidden = tab !== 'entries' || $('panel-entries').dataset.has !== 'true';
  $(`tab-${tab}`).focus();
}

export function listenToTabs() {
  TABS.forEach((tab, i) => {
    $(`tab-${tab}`).addEventListener('click', () => showTab(tab));
    $(`tab-${tab}`).addEventListener('keydown', (event) => {
      if (event.key === 'ArrowLeft' || event.key === 'ArrowRight') showTab(TABS[1 - i]);
    });
  });
  // On paper every difference is shown.
  addEventListener('beforeprint', () => { for (const d of document.querySelectorAll('details.differ')) d.open = true; });
}

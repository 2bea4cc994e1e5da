// The table of entries: columns, sorting, filters, search.
import { changesUnit } from './amend.mjs';
import { UNITS, entriesWord } from './text.mjs';
import { $, el, messageBytes, suiteMark, unitMark, verdictMark } from './parts.mjs';
import { state, viewed, viewedReport } from './state.mjs';
import { entryShown, openDialog } from './entry.mjs';

const standingWords = (e) => ({
  current: "day's file",
  replaces: `amendment, replaces row ${e.other?.row} of the day's file`,
  adds: 'amendment, added',
  replaced: `day's file, replaced by row ${e.other?.row} of the amendment`,
}[e.standing]);

// of: the sort key; number: aligned to the right; when: whether a report has the column
const COLUMNS = [
  { id: 'row', name: 'Row', of: (e) => e.row },
  { id: 'job', name: 'Job', of: (e) => e.job },
  { id: 'standing', name: 'Source', of: standingWords, when: (r) => r.amended },
  { id: 'station', name: 'Station', note: '*', of: (e) => e.station ?? -1, number: true, when: (r) => r.entries.some((e) => e.station !== null) },
  { id: 'unit', name: 'Unit', of: (e) => e.unit },
  { id: 'suite', name: 'Suite', of: (e) => e.suite },
  { id: 'key', name: 'Key', of: (e) => e.key, number: true },
  { id: 'length', name: 'Message', of: (e) => e.messageLength, number: true },
  { id: 'verdict', name: 'Verdict', of: (e) => ['forged', 'unverified', 'genuine'].indexOf(e.verdict) },
];

const FILTERS = {
  'only-forged': (e) => e.verdict === 'forged',
  'only-inch': (e) => e.unit === 2,
  'only-amended': (e) => e.standing !== 'current',
};

const STATION_NOTE = '* No tag covers a station: it is what the file claims, also if the entry is genuine.';

let rows = []; // { entry, order, node } in the order of the report
let visible = []; // the entries that the filters leave, sorted
let columns = [];
const sort = { column: 'order', down: false };

function changedUnit(e) {
  if (!changesUnit(e)) return null;
  const { unit, verdict } = e.other;
  return el('span', { class: 'unit-changed' }, `${verdict === 'genuine' ? 'was' : 'claimed before:'} ${UNITS[unit].name}`);
}

const openButton = (e) => el('button',
  { type: 'button', class: 'open', 'aria-label': `Open job ${e.job}${e.standing === 'replaced' ? ', replaced entry' : ''}` }, String(e.job));

const CELLS = {
  job: openButton,
  station: (e) => (e.station === null ? '–' : String(e.station)),
  unit: (e) => [unitMark(e.unit, e.verdict), changedUnit(e)],
  suite: (e) => suiteMark(e.suite),
  length: messageBytes,
  verdict: (e) => verdictMark(e.verdict),
};

const nameOf = (c) => c.name + (c.note ?? '');
const classOf = (c) => `col-${c.id}${c.number ? ' number' : ''}`;

const headerCell = (c) => el('th', { role: 'columnheader', scope: 'col', class: classOf(c), 'data-column': c.id, 'data-name': nameOf(c) },
  el('button', { type: 'button', on: { click: () => sortBy(c.id) } }, nameOf(c), el('span', { class: 'arrow', 'aria-hidden': 'true' })));

const bodyCell = (c, entry) => el('td', { role: 'cell', class: classOf(c), 'data-label': nameOf(c) }, CELLS[c.id]?.(entry) ?? String(c.of(entry)));

function rowOf(entry, order) {
  const node = el('tr', { role: 'row', class: `${entry.verdict} ${entry.standing ?? ''}` }, columns.map((c) => bodyCell(c, entry)));
  node.addEventListener('click', () => { if (!String(getSelection())) openDialog(entry, visible); });
  return { entry, order, node };
}

const sortOptions = () => [el('option', { value: 'order' }, 'as in the file'), ...columns.flatMap((c) => [
  el('option', { value: c.id }, c.name.toLowerCase()), el('option', { value: `${c.id} down` }, `${c.name.toLowerCase()}, falling`)])];

// Draws the table of the viewed report.
export function showTable() {
  const report = viewedReport();
  const has = Boolean(report) && report.entries.length > 0;
  $('panel-entries').hidden = !has || state.tab !== 'entries';
  $('panel-entries').dataset.has = has;
  rows = [];
  if (!has) return;
  columns = COLUMNS.filter((c) => !c.when || c.when(report));
  const stations = columns.some((c) => c.id === 'station');
  $('columns').replaceChildren(...columns.map(headerCell));
  $('paper-head').colSpan = columns.length;
  $('entries').setAttribute('aria-label', `Entries of ${viewed().name}`);
  $('entries').classList.toggle('long', report.entries.length > 100);
  $('entries').classList.toggle('amended', Boolean(report.amended));
  $('entries').classList.toggle('with-stations', stations);
  $('table-note').textContent = stations ? STATION_NOTE : '';
  $('only-amended-chip').hidden = !report.amended;
  if (!report.amended) $('only-amended').checked = false;
  if (!columns.some((c) => c.id === sort.column)) Object.assign(sort, { column: 'order', down: false });
  $('sort-by').replaceChildren(...sortOptions());
  rows = report.entries.map(rowOf);
  place();
  arrange();
}

// Sorts by a column: ascending, then descending, then in the order of the file.
function sortBy(id) {
  if (sort.column !== id) Object.assign(sort, { column: id, down: false });
  else if (!sort.down) sort.down = true;
  else Object.assign(sort, { column: 'order', down: false });
  place();
  arrange();
}

function sorted() {
  const of = COLUMNS.find((c) => c.id === sort.column)?.of;
  if (!of) return rows;
  return [...rows].sort((a, b) => {
    const [x, y] = [of(a.entry), of(b.entry)];
    const order = typeof x === 'string' ? x.localeCompare(y) : x - y;
    return (sort.down ? -order : order) || a.order - b.order;
  });
}

// Puts the rows into the page in their order.
function place() {
  $('rows').replaceChildren(...sorted().map((r) => r.node));
  for (const th of $('columns').children) {
    if (th.dataset.column === sort.column) th.setAttribute('aria-sort', sort.down ? 'descending' : 'ascending');
    else th.removeAttribute('aria-sort');
  }
  $('sort-by').value = sort.down ? `${sort.column} down` : sort.column;
}

// Why no row is shown. If the search text is a whole job number, the library looks it up.
function nothingWords(wanted) {
  const job = /^\d{1,10}$/.test(wanted) ? Number(wanted) : null;
  if (job === null || job > 0xffffffff) return 'No entry fits.';
  const { library, amendment } = state;
  const { status } = amendment ? library.amended(amendment.bytes, viewed().bytes, [job])[0] : library.lookup(viewed().bytes, job);
  return status === 32 ? `Job ${job}: ${library.words(32)} (32).` : 'No entry fits.';
}

// Hides the rows that the search and the filters exclude.
function arrange() {
  const wanted = $('search').value.trim();
  const tests = Object.keys(FILTERS).filter((id) => $(id).checked).map((id) => FILTERS[id]);
  visible = [];
  for (const { entry, node } of sorted()) {
    const fits = String(entry.job).includes(wanted) && tests.every((test) => test(entry));
    node.hidden = !fits;
    if (fits) visible.push(entry);
  }
  $('shown-count').textContent = visible.length === rows.length ? entriesWord(rows.length) : `${visible.length} of ${entriesWord(rows.length)}`;
  $('nothing').hidden = visible.length > 0;
  if (visible.length === 0) $('nothing-words').textContent = nothingWords(wanted);
}

// Moves the focus from job to job by the keys Up and Down.
function moveFocus(event) {
  const by = { ArrowDown: 1, ArrowUp: -1 }[event.key];
  if (!by) return;
  const buttons = [...$('rows').querySelectorAll('tr:not([hidden]) .open')];
  const next = buttons[buttons.indexOf(event.target) + by];
  if (!next) return;
  next.focus();
  event.preventDefault();
}

function clearFilters() {
  for (const id of Object.keys(FILTERS)) $(id).checked = false;
  $('search').value = '';
  arrange();
  $('search').focus();
}

export function listenToTable() {
  for (const id of [...Object.keys(FILTERS), 'search']) $(id).addEventListener('input', arrange);
  $('sort-by').addEventListener('input', () => {
    const [column, down] = $('sort-by').value.split(' ');
    Object.assign(sort, { column, down: Boolean(down) });
    place();
    arrange();
  });
  $('clear-filter').addEventListener('click', clearFilters);
  $('rows').addEventListener('keydown', moveFocus);
  const dialog = $('entry');
  dialog.addEventListener('click', (event) => { if (event.target === dialog) dialog.close(); });
  dialog.addEventListener('close', () => {
    dialog.replaceChildren();
    rows.find((r) => r.entry === entryShown())?.node.querySelector('.open')?.focus();
  });
}

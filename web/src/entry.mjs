// One entry in a dialog: unit, message, associated data, facts, copy.
import { openEntry } from './inspect.mjs';
import { openCurrent } from './amend.mjs';
import { SUITES, TRUST, UNITS, bytesWord, hex, hexDump, onOneLine, shown } from './text.mjs';
import { $, button, el, factRows, heading, icon, messageBytes, unitMark, verdictMark } from './parts.mjs';
import { ringBytes, state, viewed } from './state.mjs';

// { status, words, message }. A replaced entry is opened in the day's file, every other one as the current entry of its job.
function opened(entry) {
  const { library, amendment } = state;
  const day = viewed().bytes;
  try {
    return amendment && entry.standing !== 'replaced' ? openCurrent(library, amendment.bytes, day, ringBytes(), entry)
      : openEntry(library, day, ringBytes(), entry);
  } catch (error) {
    return { status: null, words: `the inspection failed (${error.message})`, message: null };
  }
}

// Copies text to the clipboard; by the deprecated command if the browser does not allow the clipboard interface.
async function written(text) {
  try {
    await navigator.clipboard.writeText(text);
    return true;
  } catch {
    const area = el('textarea', { class: 'offscreen', readonly: true });
    area.value = text;
    $('entry').append(area);
    area.select();
    const done = document.execCommand('copy');
    area.remove();
    return done;
  }
}

async function copy(control, text) {
  const before = control.textContent;
  control.textContent = await written(text) ? 'Copied' : 'Copying is not allowed here';
  control.focus();
  setTimeout(() => { control.textContent = before; }, 1600);
}

const STANDING_SAYS = {
  replaces: "From the amendment: it replaces the day's entry.",
  adds: "From the amendment: the day's file does not have this job.",
  replaced: 'No longer current: the amendment replaces it.',
};

// The entry as text. It always contains the unit and what is known of it, and with an amendment whether it is current.
function copyText(entry, message) {
  const form = (bytes) => {
    const line = onOneLine(bytes);
    return bytes.length === 0 ? 'empty' : line.startsWith('hex ') ? line : `text ${line}`;
  };
  return [
    `job ${entry.job}`, ...(STANDING_SAYS[entry.standing] ? [STANDING_SAYS[entry.standing]] : []),
    `unit ${entry.unit} ${UNITS[entry.unit].name} (${TRUST[entry.verdict]})`, `suite ${entry.suite}`, `key ${entry.key}`,
    ...(entry.station === null ? [] : [`station ${entry.station} (not covered by the tag)`]), `data ${form(entry.data)}`,
    ...(message ? [`message ${form(message)}`] : []),
  ].join('\n');
}

// Bytes under a title, as text or as a hex dump; a text can be shown as a dump.
function bytesBlock(title, bytes, ifEmpty) {
  const perLine = innerWidth < 700 ? 8 : 16;
  const { form, text } = shown(bytes, perLine);
  if (form === 'empty') return el('section', { class: 'block' }, heading(title), el('p', { class: 'muted' }, ifEmpty));
  const pre = el('pre', { class: form, tabindex: '0', 'aria-label': title }, text);
  const title3 = heading(title, `${form === 'text' ? 'text' : 'hex dump'}, ${bytesWord(bytes.length)}`);
  const toggle = button('Show as hex', () => {
    const dump = pre.classList.toggle('hex');
    pre.classList.toggle('text', !dump);
    pre.textContent = dump ? hexDump(bytes, perLine) : text;
    toggle.textContent = dump ? 'Show as text' : 'Show as hex';
  }, { class: 'button quiet small toggle-hex' });
  if (form === 'text') title3.append(toggle);
  return el('section', { class: 'block' }, title3, pre);
}

function messageBlock(entry, answer) {
  if (answer.message) return bytesBlock('Message', answer.message, 'The message is empty.');
  const words = answer.status === 8
    ? `Not opened: ${answer.words} (8). The library releases no message of an entry whose tag is wrong.`
    : `Sealed, ${messageBytes(entry)}. Not opened: ${answer.words}.`;
  return el('section', { class: 'block' }, heading('Message'), el('p', { class: 'muted' }, words));
}

const UNIT_SAYS = {
  genuine: 'Verified: the tag is right, and it covers the unit.',
  forged: 'The tag differs. This unit is only what the file claims: do not use it.',
  unverified: 'Claimed by the file and verified by nothing: that takes the key ring.',
};

const unitBanner = (unit, verdict) => el('div', { class: `unit-banner unit-${unit} is-${verdict}` },
  el('span', { class: 'banner-short', 'aria-hidden': 'true' }, UNITS[unit].short),
  el('div', {}, el('p', { class: 'banner-name' }, UNITS[unit].name), el('p', { class: 'banner-says' }, UNIT_SAYS[verdict])));

function factsOfEntry(entry) {
  const { name, version, retired } = SUITES[entry.suite];
  const whose = { day: " of the day's file", amendment: ' of the amendment' }[entry.file] ?? '';
  return el('dl', { class: 'facts' }, factRows([
    ['Row', `${entry.row}${whose}`],
    ['Station', entry.station === null ? null : `${entry.station} (not covered by the tag)`],
    ['Suite', `${entry.suite}: ${name}, COMET version ${version}${retired ? ', retired' : ''}`],
    ['Key number', String(entry.key)],
    ['Nonce', hex(entry.nonce), 'code'],
    ['Tag', hex(entry.tag), 'code'],
  ]));
}

// The entry of the other file, if there is one.
function otherBlock(entry, entries) {
  if (!entry.other) return null;
  const title = entry.standing === 'replaces' ? "Replaces this entry of the day's file" : 'Replaced by this entry of the amendment';
  const other = entries.find((e) => e.job === entry.job && e.standing !== entry.standing);
  return el('section', { class: 'block' }, heading(title),
    el('p', {}, unitMark(entry.other.unit, entry.other.verdict), ' ', verdictMark(entry.other.verdict)),
    button('Open it', () => openDialog(other, entries), { id: 'open-other' }));
}

function dialogHead(entry, verdict, entries) {
  const at = entries.indexOf(entry);
  const step = (words, id, by) => button(words, () => openDialog(entries[at + by], entries),
    { id, class: 'button quiet', disabled: at < 0 || !entries[at + by] });
  return el('div', { class: 'entry-head' },
    el('div', {}, el('h2', { id: 'entry-title', tabindex: '-1' }, `Job ${entry.job}`), verdictMark(verdict)),
    el('div', { class: 'entry-steps' }, step('Previous', 'entry-before', -1), step('Next', 'entry-next', 1),
      button(icon('close'), () => $('entry').close(), { class: 'button quiet', id: 'entry-close', 'aria-label': 'Close' })));
}

function dialogBody(entry, verdict, answer, entries) {
  const says = STANDING_SAYS[entry.standing];
  const copies = answer.message ? 'Copy message with its unit' : 'Copy what the file claims';
  return el('div', { class: 'entry-body' },
    says && el('p', { class: `standing ${entry.standing}` }, says),
    unitBanner(entry.unit, verdict),
    messageBlock(entry, answer),
    el('p', { class: 'copy-line' },
      button(copies, (event) => copy(event.target, copyText({ ...entry, verdict }, answer.message)), { id: 'copy-entry' })),
    bytesBlock('Associated data after job and unit', entry.data, 'Nothing after job and unit.'),
    otherBlock(entry, entries),
    factsOfEntry(entry));
}

let shownEntry = null;

// The entry that the dialog shows.
export const entryShown = () => shownEntry;

// Shows an entry; Previous and Next go through `entries`. The dialog's verdict is that of opening this entry just now.
export function openDialog(entry, entries) {
  const answer = opened(entry);
  const verdict = { 0: 'genuine', 8: 'forged' }[answer.status] ?? 'unverified';
  const dialog = $('entry');
  shownEntry = entry;
  dialog.className = verdict;
  dialog.replaceChildren(dialogHead(entry, verdict, entries), dialogBody(entry, verdict, answer, entries));
  dialog.onkeydown = (event) => {
    const id = { ArrowLeft: 'entry-before', ArrowRight: 'entry-next' }[event.key];
    if (id && !event.target.closest('pre')) $(id).click();
  };
  if (!dialog.open) dialog.showModal();
  dialog.scrollTop = 0;
  $('entry-title').focus();
}

// Starts the page: loads the library, listens to files, drops and buttons.
import { Library } from './library.mjs';
import { toCsv, toJson } from './report.mjs';
import { $, el } from './parts.mjs';
import { SLOTS, remove, state, take, viewed } from './state.mjs';
import { listenToTable, showTable } from './table.mjs';
import { showSlots, showSummary, showVerdict } from './verdict.mjs';
import { listenToTabs, showComparison } from './comparison.mjs';

function show() {
  if ($('entry').open) $('entry').close();
  showSlots();
  showSummary(show);
  showVerdict();
  showComparison();
  showTable();
}

// ---- reports

function save(name, type, text) {
  const link = el('a', { download: name });
  link.href = URL.createObjectURL(new Blob([text], { type }));
  document.body.append(link);
  link.click();
  link.remove();
  setTimeout(() => URL.revokeObjectURL(link.href), 10000);
}

const stem = () => (state.files.length > 1 ? 'shift-files' : viewed().name.replace(/\.shift$/, ''));

function saveAs(kind, type, write) {
  const context = { ...state, time: state.time.toISOString(), library: $('library').textContent };
  save(`${stem()}.report.${kind}`, type, write(state.files, context));
}

// ---- files

function listenToSlots() {
  for (const slot of SLOTS) {
    const input = $(`input-${slot}`);
    input.addEventListener('change', async () => {
      if (await take(slot, input.files)) show();
      input.value = ''; // so that the same file can be chosen again after a repair
    });
    $(`remove-${slot}`).addEventListener('click', () => {
      remove(slot);
      show();
      input.focus();
    });
  }
}

// A file dropped outside every slot is taken as a shift file.
function listenToDrops() {
  let depth = 0;
  const slotOf = (event) => event.target.closest?.('[data-slot]')?.dataset.slot ?? 'files';
  const mark = (slot) => {
    for (const box of document.querySelectorAll('[data-slot]')) box.classList.toggle('over', box.dataset.slot === slot);
  };
  const listen = (name, act) => addEventListener(name, (event) => {
    if (event.dataTransfer?.types.includes('Files')) act(event);
  });
  listen('dragenter', () => { depth += 1; });
  listen('dragleave', () => { depth -= 1; if (depth <= 0) mark(null); });
  listen('dragover', (event) => { event.preventDefault(); mark(slotOf(event)); });
  listen('drop', async (event) => {
    event.preventDefault();
    depth = 0;
    mark(null);
    if (await take(slotOf(event), event.dataTransfer.files)) show();
  });
}

async function start() {
  try {
    state.library = await Library.load(Uint8Array.from(atob($('wasm').textContent.trim()), (c) => c.charCodeAt(0)));
  } catch (error) {
    $('verdict').dataset.verdict = 'broken';
    $('headline').textContent = 'No verdict: this browser cannot load the library';
    $('verdict-file').textContent = error.message;
    return;
  }
  listenToSlots();
  listenToDrops();
  listenToTable();
  listenToTabs();
  $('save-json').addEventListener('click', () => saveAs('json', 'application/json', toJson));
  $('save-csv').addEventListener('click', () => saveAs('csv', 'text/csv', toCsv));
  $('print').addEventListener('click', () => print());
  show();
  document.documentElement.dataset.ready = 'true';
}

start();

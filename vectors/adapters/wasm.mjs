// Answers the cases of the conformance vectors with the WebAssembly module of the proved library: node wasm.mjs MODULE. Reads
// one case per line from the standard input and writes one answer per line to the standard output (vectors/README.md).
// `build-wasm` makes the module.
import fs from 'fs';
import readline from 'readline';

const BEFORE = 0xa5; // every byte of an output before a call
const PAGE = 65536;

const { instance } = await WebAssembly.instantiate(fs.readFileSync(process.argv[2]), {});
const library = instance.exports;
const memory = library.memory;
const heap = library.__heap_base.value;
let free = heap;

// An area of the module's memory that is reused once the case is answered.
function allocate(len) {
    const at = (free + 15) & ~15;
    free = at + len;
    const missing = free - memory.buffer.byteLength;
    if (missing > 0) memory.grow(Math.ceil(missing / PAGE));
    return { at, len };
}

function view(area) {
    return new Uint8Array(memory.buffer, area.at, area.len);
}

function given(hex) {
    const area = allocate(hex.length / 2);
    view(area).set(Buffer.from(hex, 'hex'));
    return area;
}

function output(len) {
    const area = allocate(len);
    view(area).fill(BEFORE);
    return area;
}

// An area for 32-bit integers that a function writes.
function words(count = 1) {
    return allocate(4 * count);
}

function read(area, count = 1) {
    return Array.from(new Uint32Array(memory.buffer, area.at, count));
}

const one = (area) => read(area)[0];
const hex = (area) => Buffer.from(view(area)).toString('hex');
const list = (area, count) => read(area, count).join(' ');
// Pointer and length as arguments of a C function: a length has 64 bits.
const pair = (area) => [area.at, BigInt(area.len)];
const inputs = (c, ...names) => names.flatMap((name) => pair(given(c[name])));
const at = (...areas) => areas.map((area) => area.at);
// Calls a function; its status as an unsigned number.
const call = (name, ...values) => library[name](...values) >>> 0;

// ---- records

function seal(c) {
    const [out, tag] = [output(c.out_len), output(c.tag_len)];
    const record = inputs(c, 'key', 'nonce', 'ad', 'msg');
    const status = call('comet_seal', c.suite, ...record, ...pair(out), ...pair(tag));
    return { status, out: hex(out), tag: hex(tag) };
}

function open(c) {
    const out = output(c.out_len);
    const status = call('comet_open', c.suite, ...inputs(c, 'key', 'nonce', 'ad', 'text', 'tag'), ...pair(out));
    return { status, out: hex(out) };
}

// Makes the call of one word of `steps`: aLEN, mLEN:OUT_LEN or eOUT_LEN:TAG_LEN.
function step(run, word) {
    const kind = word[0];
    const [first, second] = word.slice(1).split(':').map(Number);
    const count = words();
    const out = output(kind === 'm' ? second : first);
    const part = (area) => [area.at, BigInt(first)];
    let status;
    view(count).fill(0);
    if (kind === 'a') status = call('comet_session_data', run.session.at, ...part(run.ad));
    else if (kind === 'm') status = call('comet_session_part', run.session.at, ...part(run.msg), ...pair(out), count.at);
    else {
        run.tag = output(second);
        status = call('comet_session_end', run.session.at, ...pair(out), ...pair(run.tag), count.at);
    }
    if (status === 0 && kind !== 'e') (kind === 'a' ? run.ad : run.msg).at += first;
    run.out += hex(out).slice(0, 2 * one(count));
    run.statuses.push(status);
    run.counts.push(one(count));
}

function session(c) {
    const run = { session: allocate(72), ad: given(c.ad), msg: given(c.msg), out: '', tag: allocate(0), statuses: [], counts: [0] };
    run.statuses.push(call('comet_session_start', run.session.at, c.suite, ...inputs(c, 'key', 'nonce')));
    for (const word of c.steps.split(' ').filter((word) => word !== '')) step(run, word);
    return { statuses: run.statuses.join(' '), counts: run.counts.join(' '), out: run.out, tag: hex(run.tag) };
}

// ---- shift files

function check(c) {
    const row = words();
    const status = call('shift_check', ...inputs(c, 'file'), row.at);
    return { status, row: one(row) };
}

function lookup(c) {
    const [row, offset, len] = [words(), words(), words()];
    const file = inputs(c, 'file');
    const status = call('shift_lookup', ...file, c.job, row.at);
    if (call('shift_associated', ...file, c.job, ...at(offset, len)) !== status) throw new Error('two statuses');
    return { status, row: one(row), at: one(offset), len: one(len) };
}

function search(c) {
    const [row, looked] = [words(), words()];
    const status = call('shift_search', ...inputs(c, 'file'), c.job, ...at(row, looked));
    return { status, row: one(row), looked: one(looked) };
}

function openJob(c) {
    const [row, out] = [words(), output(c.out_len)];
    const status = call('shift_open_job', ...inputs(c, 'file', 'ring'), c.job, ...pair(out), row.at);
    return { status, row: one(row), out: hex(out) };
}

function verified(c) {
    const [row, offset, len] = [words(), words(), words()];
    const status = call('shift_verified', ...inputs(c, 'file', 'ring'), c.job, ...at(row, offset, len));
    return { status, row: one(row), at: one(offset), len: one(len) };
}

// The answer of a function that reads these files and writes one.
const writing = (name, ...files) => (c) => {
    const [row, out] = [words(), output(c.out_len)];
    const status = call(name, ...inputs(c, ...files), ...pair(out), row.at);
    return { status, row: one(row), out: hex(out) };
};

function amended(c) {
    const [file, row, offset, len] = [words(), words(), words(), words()];
    const status = call('shift_amended', ...inputs(c, 'amendment', 'day'), c.job, ...at(file, row, offset, len));
    return { status, file: one(file), row: one(row), at: one(offset), len: one(len) };
}

function openAmended(c) {
    const [file, row, out] = [words(), words(), output(c.out_len)];
    const files = inputs(c, 'amendment', 'day', 'ring');
    const status = call('shift_open_amended', ...files, c.job, ...pair(out), ...at(file, row));
    return { status, file: one(file), row: one(row), out: hex(out) };
}

function compare(c) {
    const lens = [c.first_len, c.second_len, c.differ_len];
    const lists = lens.map((len) => words(len));
    const counts = [words(), words(), words()];
    const [file, row] = [words(), words()];
    const buffers = lists.flatMap((area, i) => [area.at, BigInt(lens[i])]);
    const status = call('shift_compare', ...inputs(c, 'first', 'second'), ...buffers, ...at(...counts, file, row));
    const [first, second, differ] = lists.map((area, i) => list(area, one(counts[i])));
    return { status, file: one(file), row: one(row), first, second, differ };
}

function report(c) {
    const [jobs, numbers, count, row] = [words(c.jobs_len), output(c.numbers_len), words(), words()];
    const buffers = [jobs.at, BigInt(c.jobs_len), ...pair(numbers)];
    const status = call('shift_report', ...inputs(c, 'file', 'ring'), ...buffers, ...at(count, row));
    const each = Array.from(view(numbers)).slice(0, one(count)).join(' ');
    return { status, row: one(row), jobs: list(jobs, one(count)), numbers: each };
}

const calls = {
    seal, open, session, check, lookup, search, open_job: openJob, verified,
    seal_file: writing('shift_seal_file', 'file', 'ring'),
    unseal_file: writing('shift_unseal_file', 'file', 'ring'),
    reseal: writing('shift_reseal', 'file', 'ring'),
    to_edition2: writing('shift_to_edition2', 'file'),
    to_edition1: writing('shift_to_edition1', 'file'),
    amended, open_amended: openAmended, compare, report,
};

// The library has no function for one block of a cipher: such a case is skipped.
function answer(c) {
    free = heap;
    const fields = Object.hasOwn(calls, c.call) ? calls[c.call](c) : { skipped: 1 };
    return JSON.stringify({ id: c.id, ...fields });
}

for await (const line of readline.createInterface({ input: process.stdin })) {
    process.stdout.write(answer(JSON.parse(line)) + '\n');
}

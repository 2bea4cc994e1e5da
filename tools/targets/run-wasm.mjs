// Runs the test driver's WebAssembly module: node run-wasm.mjs MODULE. Files are `cases` and `lines` in the current folder.
import fs from 'fs';

const cases = fs.readFileSync('cases');
const lines = fs.openSync('lines', 'w');
let at = 0;
let memory;
const bytes = (from, len) => new Uint8Array(memory.buffer, from, len);

function take(to, len) {
    const part = cases.subarray(at, at + len);
    bytes(to, part.length).set(part);
    at += part.length;
    return part.length;
}

function put(from, len) {
    fs.writeSync(lines, bytes(from, len));
}

function leave(status) {
    process.exit(status);
}

const { instance } = await WebAssembly.instantiate(fs.readFileSync(process.argv[2]), { env: { take, put, leave } });
memory = instance.exports.memory;
instance.exports.run();
fs.closeSync(lines);

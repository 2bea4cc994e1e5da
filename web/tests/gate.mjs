// The gate's test data for shift files: crates/test_shift/stdin and stdout, computed by reference/.
import { read, text } from './files.mjs';

const HEAD = 30; // op, suite, job and six integers

// How many files follow the head of a call.
const FILES = { 0: 2, 1: 2, 2: 1, 3: 3, 4: 2, 5: 2, 6: 2, 7: 3, 8: 2, 9: 2, 10: 1 };

// How many lines a call has; null if it prints a program's lines (6 to 9).
function lineCount({ op, job, numbers }) {
  if (op === 1) return numbers[0]; // a line for each byte of the file
  if (op === 2) return numbers[1]; // a line for each job
  if (op === 10) return 1 + Math.min(numbers[1], 2 ** 32 - job); // the header and a line for each row
  if (op > 5) return null;
  return op === 5 ? 2 : 1;
}

function readCalls(input) {
  const view = new DataView(input.buffer);
  const calls = [];
  for (let at = 0; at < input.length;) {
    const numbers = Array.from({ length: 6 }, (_, i) => view.getUint32(at + 6 + 4 * i, true));
    const call = { op: input[at], job: view.getUint32(at + 2, true), numbers, files: [] };
    if (!(call.op in FILES)) throw new Error(`the gate's data have an op ${call.op}`);
    at += HEAD;
    for (const length of numbers.slice(0, FILES[call.op])) {
      call.files.push(input.slice(at, at + length));
      at += length;
    }
    calls.push(call);
  }
  return calls;
}

// [{ op, job, numbers, files, lines }]. Calls before the printing ones get their lines from the front of stdout, calls after
// them from its end; the printing ones have none.
export function gateCalls() {
  const calls = readCalls(read('crates/test_shift/stdin'));
  const lines = text(read('crates/test_shift/stdout')).split('\n').slice(0, -1);
  const given = (order, take) => {
    for (const call of order) {
      const count = lineCount(call);
      if (count === null) return;
      call.lines = take(count);
    }
  };
  given(calls, (count) => lines.splice(0, count));
  given([...calls].reverse(), (count) => lines.splice(lines.length - count));
  return calls.filter((call) => call.lines);
}

// The fold of long outputs in the gate's lines: from 0, each byte b maps s to (257 s + b + 1) modulo 4294967291.
const fold = (bytes) => bytes.reduce((s, b) => (s * 257 + b + 1) % 4294967291, 0).toString(16).padStart(8, '0');

// Bytes as the gate's lines write them: up to 64 bytes in hex, more as length and fold.
export const inLine = (bytes, hex) => (bytes.length <= 64 ? hex(bytes) : `${bytes.length}:${fold(bytes)}`);

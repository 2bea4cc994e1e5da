// The C functions of include/snoekeldraf.h that read shift files, as JavaScript methods. The header says what each returns.
//
// The module is the proved library compiled for wasm32: a pointer is a number, a length (uint64_t) is a BigInt, an output
// parameter is a pointer to a 32-bit cell. It imports nothing, so it reaches nothing but its own memory. A call copies its
// arguments after the module's data and reads the outputs there; `call` then overwrites all of it and the module's stack,
// so that keys and messages are in the module during a call only.

// Limits of the format, from the header.
export const FILE_BYTES_MAX = 1048576;
export const RING_BYTES = 256;
const ROWS_MAX = 512;

// The nine cells that shift_row writes, in its order.
const ROW_FIELDS = ['job', 'station', 'suite', 'key', 'nonceAt', 'dataAt', 'dataLength', 'textAt', 'textLength'];

// The module's memory for one call: buffers one after the other, each at a multiple of 8.
class Arena {
  constructor(exports) {
    this.exports = exports;
    this.base = (exports.__heap_base.value + 7) & ~7;
    this.top = this.base;
  }

  // A view ends when the memory grows: take a new one for each use.
  get memory() { return new Uint8Array(this.exports.memory.buffer); }

  reserve(length) {
    const at = this.top;
    this.top = (at + length + 7) & ~7;
    const missing = this.top - this.exports.memory.buffer.byteLength;
    if (missing > 0) this.exports.memory.grow(Math.ceil(missing / 65536));
    return at;
  }

  // [pointer, length] of a copy of the bytes, as C takes them.
  bytes(data) {
    const at = this.reserve(data.length);
    this.memory.set(data, at);
    return [at, BigInt(data.length)];
  }

  // [pointer, length] of a buffer to write.
  buffer(length) { return [this.reserve(length), BigInt(length)]; }

  // Pointers to `count` cells, one after the other.
  cells(count) {
    const at = this.reserve(4 * count);
    return Array.from({ length: count }, (_, i) => at + 4 * i);
  }

  readCells(at, count) {
    const view = new DataView(this.exports.memory.buffer);
    return Array.from({ length: count }, (_, i) => view.getUint32(at + 4 * i, true));
  }

  readBytes(at, length) { return this.memory.slice(at, at + length); }

  // The linker puts the stack in front of the data (--stack-first), from 0 to __global_base.
  wipe() {
    this.memory.fill(0, 0, this.exports.__global_base.value);
    this.memory.fill(0, this.base, this.top);
    this.top = this.base;
  }
}

export class Library {
  // wasm: the bytes of the module.
  static async load(wasm) {
    const { instance } = await WebAssembly.instantiate(wasm, {});
    return new this(instance.exports);
  }

  constructor(exports) {
    this.exports = exports;
    this.arena = new Arena(exports);
  }

  // body(functions, arena), and then the memory is wiped, also after an error.
  call(body) {
    try {
      return body(this.exports, this.arena);
    } finally {
      this.arena.wipe();
    }
  }

  // A status in words, from the library's table.
  words(status) {
    return this.call((c, m) => {
      const at = c.snoekeldraf_words(status);
      return new TextDecoder().decode(m.memory.slice(at, m.memory.indexOf(0, at)));
    });
  }

  // { status, row }
  check(file) {
    return this.call((c, m) => {
      const [row] = m.cells(1);
      const status = c.shift_check(...m.bytes(file), row) >>> 0;
      return { status, row: m.readCells(row, 1)[0] };
    });
  }

  // { status, row }
  lookup(file, job) {
    return this.call((c, m) => {
      const [row] = m.cells(1);
      const status = c.shift_lookup(...m.bytes(file), job, row) >>> 0;
      return { status, row: m.readCells(row, 1)[0] };
    });
  }

  // { status, edition, count }: only 20 to 24 are checked.
  rows(file) {
    return this.call((c, m) => {
      const [edition, count] = m.cells(2);
      const status = c.shift_rows(...m.bytes(file), edition, count) >>> 0;
      const [first, second] = m.readCells(edition, 2);
      return { status, edition: first, count: second };
    });
  }

  // [{ status, job, station, suite, key, nonceAt, dataAt, dataLength, textAt, textLength }] of the rows with these indices.
  rowsAt(file, indices) {
    return this.call((c, m) => {
      const [fields] = m.cells(ROW_FIELDS.length);
      const bytes = m.bytes(file);
      return indices.map((index) => {
        const status = c.shift_row(...bytes, index, fields) >>> 0;
        const values = m.readCells(fields, ROW_FIELDS.length);
        return { status, ...Object.fromEntries(ROW_FIELDS.map((name, i) => [name, values[i]])) };
      });
    });
  }

  // [{ status, at, length }]: for each job, where its associated data is if its tag is right under the ring.
  verified(file, ring, jobs) {
    return this.call((c, m) => {
      const cells = m.cells(3);
      const [bytes, keys] = [m.bytes(file), m.bytes(ring)];
      return jobs.map((job) => {
        const status = c.shift_verified(...bytes, ...keys, job, ...cells) >>> 0;
        const [, at, length] = m.readCells(cells[0], 3);
        return { status, at, length };
      });
    });
  }

  // { status, row, message }: the message is null unless the status is 0.
  openJob(file, ring, job, length) {
    return this.call((c, m) => {
      const [row] = m.cells(1);
      const out = m.buffer(length);
      const status = c.shift_open_job(...m.bytes(file), ...m.bytes(ring), job, ...out, row) >>> 0;
      return { status, row: m.readCells(row, 1)[0], message: status === 0 ? m.readBytes(out[0], length) : null };
    });
  }

  // [{ status, file, row, at, length }]: file is 1 (the amendment), 2 (the day's file) or 0.
  amended(amendment, day, jobs) {
    return this.call((c, m) => {
      const cells = m.cells(4);
      const files = [...m.bytes(amendment), ...m.bytes(day)];
      return jobs.map((job) => {
        const status = c.shift_amended(...files, job, ...cells) >>> 0;
        const [file, row, at, length] = m.readCells(cells[0], 4);
        return { status, file, row, at, length };
      });
    });
  }

  // { status, file, row, message }: the message is null unless the status is 0.
  openAmended(amendment, day, ring, job, length) {
    return this.call((c, m) => {
      const cells = m.cells(2);
      const out = m.buffer(length);
      const files = [...m.bytes(amendment), ...m.bytes(day), ...m.bytes(ring)];
      const status = c.shift_open_amended(...files, job, ...out, ...cells) >>> 0;
      const [file, row] = m.readCells(cells[0], 2);
      return { status, file, row, message: status === 0 ? m.readBytes(out[0], length) : null };
    });
  }

  // { status, file, row, onlyFirst, onlySecond, differ }: file is 1 or 2 if that file is refused, else 0.
  compare(first, second) {
    return this.call((c, m) => {
      const lists = [0, 1, 2].map(() => m.cells(ROWS_MAX)[0]);
      const cells = m.cells(5);
      const buffers = lists.flatMap((list) => [list, BigInt(ROWS_MAX)]);
      const status = c.shift_compare(...m.bytes(first), ...m.bytes(second), ...buffers, ...cells) >>> 0;
      const [firstCount, secondCount, differCount, file, row] = m.readCells(cells[0], 5);
      const [onlyFirst, onlySecond, differ] = [firstCount, secondCount, differCount].map((n, i) => m.readCells(lists[i], n));
      return { status, file, row, onlyFirst, onlySecond, differ };
    });
  }
}

// The C functions that write files, and the report. The page's module does not contain them; the tests make files with them.
import { Library } from '../src/library.mjs';

export class Writer extends Library {
  // { status, row, out }: out is null unless the status is 0.
  rewritten(work, file, ring, length) {
    return this.call((c, m) => {
      const [row] = m.cells(1);
      const out = m.buffer(length);
      const status = work(c, [...m.bytes(file), ...(ring ? m.bytes(ring) : []), ...out, row]) >>> 0;
      return { status, row: m.readCells(row, 1)[0], out: status === 0 ? m.readBytes(out[0], length) : null };
    });
  }

  sealFile(draft, ring) { return this.rewritten((c, words) => c.shift_seal_file(...words), draft, ring, draft.length); }

  reseal(file, ring) { return this.rewritten((c, words) => c.shift_reseal(...words), file, ring, file.length); }

  movedLength(file) { return this.call((c, m) => Number(c.shift_moved_length(...m.bytes(file)))); }

  toEdition2(file) { return this.rewritten((c, words) => c.shift_to_edition2(...words), file, null, this.movedLength(file)); }

  // { status, row, entries: [{ job, status }] }
  report(file, ring) {
    return this.call((c, m) => {
      const [jobs, statuses, cells] = [m.cells(512), m.reserve(512), m.cells(2)];
      const status = c.shift_report(...m.bytes(file), ...m.bytes(ring), jobs[0], 512n, statuses, 512n, ...cells) >>> 0;
      const [count, row] = m.readCells(cells[0], 2);
      const each = m.readBytes(statuses, count);
      return { status, row, entries: m.readCells(jobs[0], count).map((job, i) => ({ job, status: each[i] })) };
    });
  }

  // Whether the record is genuine; the lengths of nonce and tag are checked before.
  verify(suite, nonceLength, tagLength) {
    return this.call((c, m) => c.comet_verify(suite, ...m.bytes(new Uint8Array(16)), ...m.bytes(new Uint8Array(nonceLength)),
      ...m.bytes(new Uint8Array(0)), ...m.bytes(new Uint8Array(0)), ...m.bytes(new Uint8Array(tagLength))) >>> 0);
  }
}

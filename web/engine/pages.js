// The module's memory in pages of 64 KB: those that have changed since they were last taken, found by a sum in the module, with what
// JavaScript knows of it beside them; and a host that goes on from what was taken.
//   const pages = new Pages(exports);   of a new instance of the module
//   pages.take(host)          { head, isAll, rows: [{ n, bytes }] }; where isAll, what was taken before counts no more
//   pages.revive(kept, lines)    the host, from { head, rows } and the lines of its record; null where they don't fit together
// All is one row, since many rows are slow to read; and so it is again where too many pages have changed since.
'use strict';

const PAGE_BYTES = 65536, MOST_ROWS = 96, ALL = -1, FORM = 2;   // FORM: of what is kept beside the pages

class Pages {
  constructor(exports) {
    this.x = exports;
    this.stack = exports.__stack_pointer.value;   // what it is between two calls
    this.sums = null;                             // the sum of each page, as it was last taken
    this.rows = new Set();                        // the pages that were taken since all were
  }

  sumsNow() {
    const count = this.x.memory.buffer.byteLength / PAGE_BYTES;
    return Array.from({ length: count }, (_, n) => BigInt.asUintN(64, this.x.page_sum(BigInt(n * PAGE_BYTES))));
  }

  // Between two calls only; null where one has ended before its end.
  take(host) {
    const sums = this.sumsNow(), was = this.sums ?? [];
    if (this.x.__stack_pointer.value !== this.stack) return null;
    const changed = [...sums.keys()].filter((n) => sums[n] !== was[n]);
    for (const n of changed) this.rows.add(n);
    const isAll = this.sums === null || this.rows.size > MOST_ROWS;
    if (isAll) this.rows.clear();
    this.sums = sums;
    const copy = (from, end) => new Uint8Array(this.x.memory.buffer).slice(from, end);
    const rows = isAll ? [{ n: ALL, bytes: copy() }] : changed.map((n) => ({ n, bytes: copy(n * PAGE_BYTES, (n + 1) * PAGE_BYTES) }));
    return { head: { sum: sumOf(sums), count: sums.length, form: FORM, state: host.state() }, isAll, rows };
  }

  revive({ head, rows }, lines) {
    if (head.form !== FORM) return null;
    const { memory } = this.x, { state } = head, more = head.count - memory.buffer.byteLength / PAGE_BYTES;
    if (lines.length < state.lines) return null;
    if (more > 0) memory.grow(BigInt(more));
    const to = new Uint8Array(memory.buffer);
    for (const { n, bytes } of rows) to.set(bytes, n === ALL ? 0 : n * PAGE_BYTES);
    const sums = this.sumsNow();
    if (sums.length !== head.count || sumOf(sums) !== head.sum) return null;
    this.sums = sums;
    this.rows = new Set(rows.map(({ n }) => n).filter((n) => n !== ALL));
    return Host.revived(this.x, state, lines);
  }
}

// One sum over those of all pages.
const sumOf = (sums) => sums.reduce((all, sum) => BigInt.asUintN(64, (all ^ sum) * 0x9E3779B185EBCA87n + 1n), 0n);

// The files that ship with the page: beside it on a server, or in it where it is one file (P11_INSIDE, which web/build
// writes), since a page that was opened from a disk can't fetch.
//   await Shelf.bytes('p11.wasm'); await Shelf.text('examples/monitor.p11')
'use strict';

const Shelf = {
  async bytes(name) {
    const inside = globalThis.P11_INSIDE?.[name];
    if (inside !== undefined) return Uint8Array.from(atob(inside), (c) => c.charCodeAt(0));
    const answer = await fetch(name);
    if (!answer.ok) throw new Error(`${name}: the server answers ${answer.status}`);
    return new Uint8Array(await answer.arrayBuffer());
  },

  async text(name) { return new TextDecoder().decode(await this.bytes(name)); },
};

// Gives the user a file.
function download(name, bytes) {
  const link = document.createElement('a');
  link.href = URL.createObjectURL(new Blob([bytes]));
  link.download = name;
  link.click();
  setTimeout(() => URL.revokeObjectURL(link.href), 10000);
}

// Gives the user a record, which begins with a remark that tells which program it is of (P11_MADE, which web/build writes).
function downloadRecord(name, text) {
  const made = globalThis.P11_MADE;
  download(name, new TextEncoder().encode(made === undefined ? text : `# ${made}\n${text}`));
}

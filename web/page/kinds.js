// What a file is that was dropped or picked, by what is in it, by its size and by its name; of a line and of a tape the console is asked:
//   await kindOf('diag.ptap', bytes, async (line, bytes) => ..)   { kind: 'script' }, 'tape', 'pack' or 'packed' (a session in one file);
//                                { kind: 'pack', doubt: '..' } is to be asked, and
//                                { refused: 'picture.png is a PNG picture, and no pack, tape or script' } is to be said
// What has the size of a pack is one, whatever it begins with, and so is what is dropped on a drive (imageOf).
'use strict';

const SECTOR_BYTES = 512, PACK_BYTES = 203 * 2 * 12 * SECTOR_BYTES, MOST_LEADER = 512;
const UNPACK = 'unpack it first', NONE = 'and no pack, tape or script';
const OTHERS = [
  [`a gzip archive: ${UNPACK}`, 0, '\x1f\x8b'], [`a ZIP archive: ${UNPACK}`, 0, 'PK\x03\x04'], [`a 7z archive: ${UNPACK}`, 0, '7z\xbc\xaf'],
  [`an xz archive: ${UNPACK}`, 0, '\xfd7zX'], [`a bzip2 archive: ${UNPACK}`, 0, 'BZh'], [`a tar archive: ${UNPACK}`, 257, 'ustar'],
  [`a PNG picture, ${NONE}`, 0, '\x89PNG'], [`a JPEG picture, ${NONE}`, 0, '\xff\xd8\xff'], [`a GIF picture, ${NONE}`, 0, 'GIF8'],
  [`a PDF document, ${NONE}`, 0, '%PDF'], [`a program for another machine, ${NONE}`, 0, '\x7fELF'],
  [`a program for another machine, ${NONE}`, 0, 'MZ'], [`a WebAssembly module, ${NONE}`, 0, '\0asm'],
];
const TAPE_NAME = /\.(tape|ptap|ptp|pt|bic|lda|abs)$/i, PACK_NAME = /\.(pack|rk05|rk\d?|dsk|img)$/i;

async function kindOf(file, bytes, answer) {
  if (/\.p11z$/i.test(file)) return { kind: 'packed' };
  if (bytes.length === PACK_BYTES) return { kind: 'pack' };
  if (/\.p11$/i.test(file) && isImage(bytes)) return { refused: noScript(file) };
  const other = OTHERS.find(([, from, mark]) => [...mark].every((c, at) => bytes[from + at] === c.charCodeAt(0)));
  if (other) return { refused: `${file} is ${other[0]}` };
  if (bytes.length === 0) return { refused: `${file} has no bytes` };
  const text = textIn(bytes);
  if (text !== null) return kindOfText(file, text, answer);
  if (TAPE_NAME.test(file) || await isTape(bytes, answer)) return { kind: 'tape' };
  const before = await straysBefore(bytes, answer);
  if (before > 0) {
    const those = before === 1 ? 'first byte' : `first ${before} bytes`;
    return { refused: `${file} is no paper tape for its ${those}: a tape begins with zeros and 1 0` };
  }
  return kindOfImage(file, bytes.length);
}

const counted = (size) => size.toLocaleString('en'), has = (file, size) => `${file} has ${counted(size)} bytes`;

// A pack has whole sectors, and the size or the name of one.
function kindOfImage(file, size) {
  const told = has(file, size);
  if (size > PACK_BYTES && !PACK_NAME.test(file)) return { refused: `${told}, and a pack of an RK05 has ${counted(PACK_BYTES)}` };
  if (size > PACK_BYTES) return imageOf(file, size);
  if (size % SECTOR_BYTES !== 0) return { kind: 'pack', doubt: `${told}, which aren't whole sectors of ${SECTOR_BYTES}. Is it a pack?` };
  if (PACK_NAME.test(file)) return { kind: 'pack' };
  return { kind: 'pack', doubt: `${told}, and neither the size nor the name of a pack. Is it a pack?` };
}

// What is dropped on a drive: a pack, with a word on what a shorter one lacks; a longer one is cut, if that is wanted.
function imageOf(file, size) {
  if (size > PACK_BYTES) return { kind: 'pack', doubt: `${has(file, size)}, and a pack of an RK05 has ${counted(PACK_BYTES)}. Are the first of them the pack?` };
  return { kind: 'pack', lacks: size < PACK_BYTES ? `it has ${counted(size)} bytes, and the other ${counted(PACK_BYTES - size)} read as zeros` : '' };
}

// A NUL in the first 4,096 bytes is no byte of a script.
const isImage = (bytes) => bytes.subarray(0, 4096).includes(0);
const noScript = (file) => `${file} has a NUL in its first 4,096 bytes, so it is an image and no script: drop it on a drive, and press Boot there`;

// The beginning of a text, or null where there are bytes that no text has.
function textIn(bytes) {
  const begin = bytes.subarray(0, 4096);
  if (begin.some((byte) => byte === 127 || (byte < 32 && (byte < 9 || byte > 13)))) return null;
  try {
    return new TextDecoder('utf-8', { fatal: true }).decode(begin, { stream: true });
  } catch {
    return null;
  }
}

async function kindOfText(file, text, answer) {
  const first = text.split('\n').map((line) => line.trim()).find((line) => line !== '' && !line.startsWith('#')) ?? '';
  if (/\.p11$/i.test(file) || !(await answer(first)).startsWith('? 13 ')) return { kind: 'script' };
  return { refused: `${file} is a text, and no script: "${first.slice(0, 40)}" is no line of the console` };
}

// A tape begins behind its leader as a block does, and is loaded to its end.
async function isTape(bytes, answer) {
  const at = bytes.findIndex((byte) => byte !== 0);
  return at >= 0 && isBlock(bytes, at) && (await answer('load tape', bytes)).startsWith('TAPE ');
}

const isBlock = (bytes, at) => bytes[at] === 1 && bytes[at + 1] === 0;

// How many bytes stand in front of what would be a tape without them, or 0.
async function straysBefore(bytes, answer) {
  for (let at = 1; at <= Math.min(MOST_LEADER, bytes.length - 2); at++) {
    if (isBlock(bytes, at) && await isTape(bytes.subarray(at), answer)) return bytes.findLastIndex((byte, n) => n < at && byte !== 0) + 1;
  }
  return 0;
}

// A name that a line of the console can have, and that no other file of the session has.
function nameFor(file, isTaken) {
  const plain = file.replace(/[^!-~]/g, '_').slice(-200) || 'file';
  let found = plain;
  for (let n = 2; isTaken(found); n++) found = plain.replace(/(\.[^.]*)?$/, (end) => `-${n}${end}`);
  return found;
}

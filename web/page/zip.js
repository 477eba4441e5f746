// ZIP archives, as `zip` and `unzip` know them:
//   await zipOf([{ name, bytes }])   the bytes of one
//   await filesIn(bytes)             [{ name, bytes }]; throws where it can't be read
'use strict';

const STORED = 0, DEFLATED = 8, UTF8 = 0x800, NEW_YEAR_1980 = 0x21, PLAIN_FILE = 0o100644 * 65536, MOST_BYTES = 1 << 28, MOST_END = 65557;
const LOCAL = 0x04034b50, CENTRAL = 0x02014b50, END = 0x06054b50, LOCAL_BYTES = 30, CENTRAL_BYTES = 46, END_BYTES = 22;
const CRC = Uint32Array.from({ length: 256 }, (_, n) => {
  let crc = n;
  for (let bit = 0; bit < 8; bit++) crc = crc & 1 ? crc >>> 1 ^ 0xEDB88320 : crc >>> 1;
  return crc;
});
const crcOf = (bytes) => ~bytes.reduce((crc, byte) => CRC[(crc ^ byte) & 255] ^ crc >>> 8, -1) >>> 0;

// What a stream makes of bytes; null where that is more than so many.
async function through(stream, bytes, most = Infinity) {
  const parts = [];
  let size = 0;
  for (const reader = new Blob([bytes]).stream().pipeThrough(stream).getReader(); ;) {
    const { done, value } = await reader.read();
    if (done) return new Uint8Array(await new Blob(parts).arrayBuffer());
    size += value.length;
    if (size > most) { reader.cancel().catch(() => {}); return null; }
    parts.push(value);
  }
}

// Numbers of two bytes, and of four where they are in a list of their own.
function header(...numbers) {
  return Uint8Array.from(numbers.flatMap((it) => (Array.isArray(it) ? [0, 8, 16, 24] : [0, 8]).map((bit) => (it >>> bit) & 255)));
}

async function zipOf(files) {
  const front = [], back = [];
  let at = 0, backBytes = 0;
  for (const { name, bytes } of files) {
    const shown = new TextEncoder().encode(name), packed = await through(new CompressionStream('deflate-raw'), bytes);
    const same = [20, UTF8, DEFLATED, 0, NEW_YEAR_1980, [crcOf(bytes)], [packed.length], [bytes.length], shown.length, 0];
    front.push(header([LOCAL], ...same), shown, packed);
    back.push(header([CENTRAL], 0x314, ...same, 0, 0, 0, [PLAIN_FILE], [at]), shown);
    at += LOCAL_BYTES + shown.length + packed.length;
    backBytes += CENTRAL_BYTES + shown.length;
  }
  const end = header([END], 0, 0, files.length, files.length, [backBytes], [at], 0);
  return new Uint8Array(await new Blob([...front, ...back, end]).arrayBuffer());
}

// The end of an archive is in its last 65,557 bytes; its files have MOST_BYTES together at most.
async function filesIn(bytes) {
  const data = new DataView(bytes.buffer, bytes.byteOffset, bytes.length), damaged = () => new Error('its list of files is damaged');
  const number = (read, at) => { try { return read.call(data, at, true); } catch { throw damaged(); } };
  const two = (at) => number(data.getUint16, at), four = (at) => number(data.getUint32, at);
  const first = Math.max(0, bytes.length - MOST_END);
  let end = bytes.length - END_BYTES, room = MOST_BYTES;
  while (end >= first && four(end) !== END) end--;
  if (end < first) throw new Error('its end is missing');
  const files = [];
  for (let at = four(end + 16), left = two(end + 10); left > 0; left--) {
    if (four(at) !== CENTRAL) throw damaged();
    const [method, crc, packed, size, from] = [two(at + 10), four(at + 16), four(at + 20), four(at + 24), four(at + 42)];
    const [nameBytes, begin] = [two(at + 28), from + LOCAL_BYTES + two(from + 26) + two(from + 28)];
    const name = new TextDecoder().decode(bytes.subarray(at + CENTRAL_BYTES, at + CENTRAL_BYTES + nameBytes));
    at += CENTRAL_BYTES + nameBytes + two(at + 30) + two(at + 32);
    if (name.endsWith('/')) continue;
    if (![STORED, DEFLATED].includes(method)) throw new Error(`${name} isn't packed in a way that is known here`);
    room -= size;
    if (room < 0) throw new Error(`its files have more than ${MOST_BYTES.toLocaleString('en')} bytes`);
    const part = bytes.subarray(begin, begin + packed);
    const whole = method === STORED ? part.slice() : await through(new DecompressionStream('deflate-raw'), part, size).catch(() => null);
    if (whole?.length !== size || crcOf(whole) !== crc) throw new Error(`${name} is damaged`);
    files.push({ name, bytes: whole });
  }
  return files;
}

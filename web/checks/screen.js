// node screen.js: the screen by itself, by the codes of the VT52 and of the VT100 as DEC's user guides give them. Exit status 1:
// something is shown otherwise.
'use strict';
const assert = require('assert'), fs = require('fs'), path = require('path'), vm = require('vm');

const source = ['sequences', 'screen'].map((name) => fs.readFileSync(path.join(__dirname, `../page/${name}.js`), 'utf8')).join('');
const Screen = vm.runInNewContext(`${source}; Screen`);

const bytes = (text) => Uint8Array.from(text, (c) => c.charCodeAt(0));
const shown = (screen) => screen.cells.map((row) => row.map((cell) => cell.shown ?? cell).join('').trimEnd());

// What a text shows: the lines that aren't empty, by their numbers, and where the cursor is.
function show(text, screen = new Screen()) {
  screen.write(bytes(text));
  const lines = Object.fromEntries([...shown(screen).entries()].filter(([, line]) => line !== ''));
  return { lines, at: [screen.y, screen.x], reply: String.fromCharCode(...screen.takeReplies()), gone: screen.takeGone().length };
}

const CASES = [
  ['two lines', 'AB\r\nCD', { 0: 'AB', 1: 'CD' }, [1, 2]],
  ['LF alone goes straight down', 'AB\nC', { 0: 'AB', 1: '  C' }, [1, 3]],
  ['backspace stops at the margin', 'A\b\b\bB', { 0: 'B' }, [0, 1]],
  ['tabs of eight columns', 'A\tB\tC', { 0: 'A       B       C' }, [0, 17]],
  ['a line of 80 goes on in the next', 'x'.repeat(81), { 0: 'x'.repeat(80), 1: 'x' }, [1, 1]],
  ['no wrap', '\x1b[?7l' + 'x'.repeat(80) + 'yz', { 0: 'x'.repeat(79) + 'z' }, [0, 80]],
  ['VT100: cursor by row and column', '\x1b[5;10HX', { 4: '         X' }, [4, 10]],
  ['VT100: no parameters are 1', '\x1b[5;10H\x1b[HX', { 0: 'X' }, [0, 1]],
  ['VT100: moves stop at the edges', '\x1b[99;99H\x1b[5B\x1b[5CX', { 23: ' '.repeat(79) + 'X' }, [23, 80]],
  ['VT100: erase to the end of the line', 'ABCDEF\x1b[3D\x1b[K', { 0: 'ABC' }, [0, 3]],
  ['VT100: erase from its beginning', 'ABCDEF\x1b[3D\x1b[1K', { 0: '    EF' }, [0, 3]],
  ['VT100: erase the screen', 'A\r\nB\x1b[2JC', { 1: ' C' }, [1, 2]],
  ['VT100: erase to the end of the screen', 'AB\r\nCD\r\nEF\x1b[2;2H\x1b[J', { 0: 'AB', 1: 'C' }, [1, 1]],
  ['VT100: a region scrolls alone', 'top\x1b[2;4r\x1b[4;1Ha\r\nb\r\nc\r\nd', { 0: 'top', 1: 'b', 2: 'c', 3: 'd' }, [3, 1]],
  ['VT100: reverse index at its top', '\x1b[2;4r\x1b[2;1Ha\x1b[2;1H\x1bMb', { 1: 'b', 2: 'a' }, [1, 1]],
  ['VT100: index and next line', 'A\x1bDB\x1bEC', { 0: 'A', 1: ' B', 2: 'C' }, [2, 1]],
  ['VT100: origin mode', '\x1b[3;5r\x1b[?6h\x1b[1;1HX\x1b[9;1HY', { 2: 'X', 4: 'Y' }, [4, 1]],
  ['VT100: saved cursor', 'AB\x1b7\x1b[9;9H\x1b8C', { 0: 'ABC' }, [0, 3]],
  ['VT100: graphics', '\x1b(0lqk\x1b(Blqk', { 0: '┌─┐lqk' }, [0, 6]],
  ['VT100: a tab that is set', '\x1b[3g\x1b[1;5H\x1bH\r\tX', { 0: '    X' }, [0, 5]],
  ['VT102: lines are inserted and deleted', 'a\r\nb\r\nc\x1b[2;1H\x1b[Lx\x1b[3;1H\x1b[M', { 0: 'a', 1: 'x', 2: 'c' }, [2, 0]],
  ['VT102: characters are inserted and deleted', 'ABCD\x1b[1;2H\x1b[2@\x1b[1;5H\x1b[P', { 0: 'A  BD' }, [0, 4]],
  ['VT52: cursor by row and column', '\x1b[?2l\x1bY$)X', { 4: '         X' }, [4, 10]],
  ['VT52: home, left and reverse', '\x1b[?2l\x1bY!!A\x1bD\x1bDB\x1bHC', { 0: 'C', 1: 'BA' }, [0, 1]],
  ['VT52: erase to the end of screen and line', 'AB\r\nCD\x1b[?2l\x1bH\x1bC\x1bJ\x1bY !\x1bK', { 0: 'A' }, [0, 1]],
  ['VT102: a count beyond the line', `AB\x1b[1;2H\x1b[${'9'.repeat(400)}P\x1b[${'9'.repeat(400)}@C`, { 0: 'AC' }, [0, 2]],
  ['VT102: lines outside the region stay', 'a\x1b[2;4r\x1b[1;1H\x1b[9Lb', { 0: 'b' }, [0, 1]],
  ['VT102: more lines than the region has', 'a\r\nb\r\nc\r\nd\x1b[2;3r\x1b[2;1H\x1b[9999Mx', { 0: 'a', 1: 'x', 3: 'd' }, [1, 1]],
  ['codes of later terminals', '\x1b]0;title\x07A\x1b[>4;2m\x1b[38;5;1mB\x1b[!pC\x1bP$q\x1b\\D', { 0: 'ABCD' }, [0, 4]],
  ['a code that is broken off', 'A\x1b[12\x18B', { 0: 'AB' }, [0, 2]],
  ['the eighth bit is dropped', '\xc1\xc2', { 0: 'AB' }, [0, 2]],
];

const NUMBERS = ['9'.repeat(400), '9'.repeat(1e4), ';'.repeat(1e4), '9999;'.repeat(2e3), '4294967297;18446744073709551617', '1:2'.repeat(1e3)];
const MARKS = ['', '?', '>', '=', '<'], BETWEEN = ['', ' ', '!', '"', '#', '$', '\'', '(', ')', '*', '+', ',', '-', '.', '/'];
const letters = (first, last) => Array.from({ length: last - first + 1 }, (_, n) => String.fromCharCode(first + n));

// Each code that can follow ESC, ESC [ and a beginning of a string, with numbers of any size.
function* codes() {
  for (const first of letters(32, 126)) for (const second of ['', ...letters(32, 126)]) yield `\x1b${first}${second}`;
  for (const begin of 'PX]^_') for (const end of ['\x07', '\x1b\\', '\x18', '\n']) yield `\x1b${begin}0;${'x'.repeat(1e5)}${end}`;
  for (const mark of MARKS) for (const between of BETWEEN) for (const letter of letters(64, 126)) {
    const isPlain = mark === '' && between === '';
    for (const number of isPlain ? NUMBERS : NUMBERS.slice(0, 1)) yield `\x1b[${mark}${number}${between}${letter}`;
  }
}

// Numbers that look random, by a seed: the generator is Marsaglia's xorshift of 32 bits.
function* random(count, seed) {
  for (let word = seed, n = 0; n < count; n++) {
    word ^= word << 13; word ^= word >>> 17; word ^= word << 5;
    yield word & 255;
  }
}

// A screen that is whole: so many lines of so many characters, and a cursor that is on it.
function isWhole({ cells, rows, columns, x, y, top, bottom }) {
  return cells.length === rows && cells.every((row) => row.length === columns) && x >= 0 && x <= columns && y >= 0 && y < rows && top < bottom;
}

// Whether bytes leave a whole screen that goes on, and kept lines that are no more than the page shows.
function withstands(screen, given, name) {
  screen.write(given);
  assert(isWhole(screen) && screen.gone.length <= 10000, `${name} breaks the screen`);
  screen.takeReplies();
}

// Any bytes: the time is that of the processor, so that a busy machine changes nothing.
function bounds() {
  const MILLION = 1000000, before = process.cpuUsage();
  let count = 0;
  for (const code of codes()) {
    const screen = new Screen();
    withstands(screen, bytes(code), JSON.stringify(code.slice(0, 20)));
    screen.write(bytes('\x18\x1b<\x1bcOK'));
    assert.equal(shown(screen)[0], 'OK', `behind ${JSON.stringify(code.slice(0, 20))} nothing is shown`);
    count++;
  }
  const screen = new Screen();
  for (let n = 0; n < 10; n++) withstands(screen, Uint8Array.from(random(MILLION, n + 1)), `a million random bytes (${n})`);
  const { user, system } = process.cpuUsage(before), seconds = (user + system) / 1e6;
  assert(seconds < 60, `${count} codes and 10,000,000 random bytes took ${seconds} s of the processor`);
  console.log(`web/check: ${count} codes with numbers of any size, and 10,000,000 random bytes, leave the screen whole`);
}

for (const [name, text, lines, at] of CASES) {
  const found = show(text);
  assert.deepEqual({ lines: { ...found.lines }, at: [...found.at] }, { lines, at }, name);
}
assert.equal(show('\x1b[c').reply, '\x1b[?1;2c');
assert.equal(show('\x1b[?2l\x1bZ').reply, '\x1b/Z');
assert.equal(show('\x1b[5;7H\x1b[6n').reply, '\x1b[5;7R');
assert.equal(show('\n'.repeat(30)).gone, 7);
const styled = new Screen();
styled.write(bytes('\x1b[1;7mA\x1b[0mB'));
assert.deepEqual([styled.cells[0][0].style, styled.cells[0][1]], [5, 'B']);
console.log(`web/check: the screen shows ${CASES.length} texts as a VT52 and a VT100 do`);
bounds();

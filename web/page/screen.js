// A screen of 24 lines of 80 columns with the codes of a VT52 and of a VT100, as far as DEC's editors send them:
//   const screen = new Screen(); screen.write(bytes); screen.cells[y][x], screen.gone, screen.takeReplies()
// ESC [ ? 2 l makes it a VT52, ESC < a VT100 again. Where a code means something in one of the two alone, both take it.
// sequences.js finds the codes. No DOM: view.js shows it.
'use strict';

const GRAPHICS = '◆▒␉␌␍␊°±␤␋┘┐┌└┼⎺⎻─⎼⎽├┤┴┬│≤≥π≠£·';
const PLAIN = 0, BOLD = 1, UNDERLINE = 2, REVERSE = 4, MOST_GONE = 5000;

class Screen {
  constructor(rows = 24, columns = 80) {
    Object.assign(this, { rows, columns, bells: 0, isWide: false, gone: [], replies: [], sequences: new Sequences(this) });
    this.reset();
  }

  reset() {
    Object.assign(this, {
      x: 0, y: 0, top: 0, bottom: this.rows - 1, style: PLAIN, saved: null,
      isVt52: false, hasOrigin: false, wraps: true, showsCursor: true, cursorKeys: false, keypad: false, sets: ['B', 'B'], shift: 0,
    });
    this.stops = Array.from({ length: this.columns }, (_, x) => x % 8 === 0);
    this.cells = Array.from({ length: this.rows }, () => this.blank());
  }

  // All that shows, as plain data; and the same again.
  picture() {
    const { sequences: { screen, ...sequences }, bells, isWide, gone, replies, ...own } = this;
    return structuredClone({ own, sequences });
  }

  showAgain({ own, sequences }) {
    Object.assign(this, own);
    Object.assign(this.sequences, sequences);
  }

  blank() { return new Array(this.columns).fill(' '); }

  // What it answers to the machine, which is to be sent there.
  takeReplies() {
    const replies = this.replies;
    this.replies = [];
    return replies;
  }

  reply(text) { for (const c of text) this.replies.push(c.charCodeAt(0)); }

  // Of seven bits the eighth is parity, which isn't shown; of eight (isWide) a byte that has it is shown as its number.
  write(bytes) {
    for (const byte of bytes) {
      if (this.isWide && byte > 127) for (const c of `<${byte.toString(16).toUpperCase()}>`) this.show(c);
      else this.sequences.put(byte & 0o177);
    }
  }

  show(c) {
    const isGraphic = this.sets[this.shift] === '0' && c >= '`' && c <= '~';
    const shown = isGraphic ? GRAPHICS[c.charCodeAt(0) - 96] : c;
    if (this.x === this.columns) {
      if (this.wraps) { this.x = 0; this.down(); } else this.x = this.columns - 1;
    }
    this.cells[this.y][this.x++] = this.style === PLAIN ? shown : { shown, style: this.style };
  }

  control(byte) {
    switch (byte) {
      case 7: this.bells++; break;
      case 8: this.x = Math.max(0, Math.min(this.x, this.columns - 1) - 1); break;
      case 9: do this.x++; while (this.x < this.columns - 1 && !this.stops[this.x]); this.x = Math.min(this.x, this.columns - 1); break;
      case 10: case 11: case 12: this.down(); break;
      case 13: this.x = 0; break;
      case 14: this.shift = 1; break;
      case 15: this.shift = 0; break;
      default:
    }
  }

  // What follows ESC. D, E, H and M mean one thing to a VT52 and another to a VT100.
  escape(c) {
    switch (c) {
      case 'A': this.go(this.y - 1, this.x); break;
      case 'B': this.go(this.y + 1, this.x); break;
      case 'C': this.go(this.y, this.x + 1); break;
      case 'D': if (this.isVt52) this.go(this.y, this.x - 1); else this.down(); break;
      case 'E': if (!this.isVt52) { this.x = 0; this.down(); } break;
      case 'F': this.sets[0] = '0'; break;
      case 'G': this.sets[0] = 'B'; break;
      case 'H': if (this.isVt52) this.go(0, 0); else this.stops[Math.min(this.x, this.columns - 1)] = true; break;
      case 'I': this.up(); break;
      case 'M': if (!this.isVt52) this.up(); break;
      case 'J': this.erase(this.y, this.x, this.rows - 1, this.columns - 1); break;
      case 'K': this.erase(this.y, this.x, this.y, this.columns - 1); break;
      case 'Z': this.reply(this.isVt52 ? '\x1b/Z' : '\x1b[?1;2c'); break;
      case '7': this.saved = { x: this.x, y: this.y, style: this.style, sets: [...this.sets], shift: this.shift }; break;
      case '8': this.restore(this.saved ?? { ...this, x: 0, y: 0, style: PLAIN }); break;
      case 'c': this.reset(); break;
      case '<': this.isVt52 = false; break;
      case '=': this.keypad = true; break;
      case '>': this.keypad = false; break;
      default:
    }
  }

  restore({ x, y, style, sets, shift }) { Object.assign(this, { x, y, style, sets: [...sets], shift }); }

  // ESC, a character below 0 and another one: a set of characters, or a screen of E.
  choose(which, c) {
    if (which === '(') this.sets[0] = c;
    else if (which === ')') this.sets[1] = c;
    else if (which === '#' && c === '8') this.fill('E');
  }

  sequence(letter, numbers, isPrivate) { controlSequence(this, letter, numbers, isPrivate); }

  go(y, x) {
    const [first, last] = this.hasOrigin ? [this.top, this.bottom] : [0, this.rows - 1];
    this.y = Math.max(first, Math.min(last, y));
    this.x = Math.max(0, Math.min(this.columns - 1, x));
  }

  down() {
    if (this.y === this.bottom) this.scroll(this.top, this.bottom); else if (this.y < this.rows - 1) this.y++;
  }

  up() {
    if (this.y === this.top) this.insert(this.top, this.bottom, 1); else if (this.y > 0) this.y--;
  }

  // Moves the lines of a region one up. What leaves the screen at its top is kept, the last MOST_GONE lines at least.
  scroll(top, bottom) {
    if (top === 0) this.gone.push(this.cells[top]);
    if (this.gone.length === 2 * MOST_GONE) this.gone.splice(0, MOST_GONE);
    this.remove(top, bottom, 1);
  }

  // Takes lines out of a region, or puts blank ones in, at most as many as it has.
  remove(line, bottom, count) {
    const lines = Math.min(count, bottom + 1 - line);
    this.cells.splice(line, lines);
    this.cells.splice(bottom + 1 - lines, 0, ...Array.from({ length: lines }, () => this.blank()));
  }

  insert(line, bottom, count) {
    const lines = Math.min(count, bottom + 1 - line);
    this.cells.splice(bottom + 1 - lines, lines);
    this.cells.splice(line, 0, ...Array.from({ length: lines }, () => this.blank()));
  }

  // Erases from one place to another, both included.
  erase(y, x, lastY, lastX) {
    for (let row = y; row <= lastY; row++) {
      const from = row === y ? x : 0, to = row === lastY ? lastX : this.columns - 1;
      this.cells[row].fill(' ', from, to + 1);
    }
  }

  fill(c) { for (const row of this.cells) row.fill(c); }

  // The lines that scrolled off since they were last taken.
  takeGone() {
    const gone = this.gone;
    this.gone = [];
    return gone;
  }
}

// ESC [ numbers letter.
function controlSequence(screen, letter, numbers, isPrivate) {
  if (isPrivate && !'hlJK'.includes(letter)) return;
  const [first, second] = numbers, count = first || 1, { x, y, rows, columns } = screen;
  const line = Math.min(x, columns - 1), isInRegion = y >= screen.top && y <= screen.bottom;
  const most = Math.min(count, columns - line), blanks = new Array(most).fill(' ');
  switch (letter) {
    case 'A': screen.go(Math.max(y - count, y >= screen.top ? screen.top : 0), x); break;
    case 'B': screen.go(Math.min(y + count, y <= screen.bottom ? screen.bottom : rows - 1), x); break;
    case 'C': screen.go(y, x + count); break;
    case 'D': screen.go(y, line - count); break;
    case 'H': case 'f': screen.go((first || 1) - 1 + (screen.hasOrigin ? screen.top : 0), (second || 1) - 1); break;
    case 'J':
      if (first === 0) screen.erase(y, line, rows - 1, columns - 1);
      else screen.erase(0, 0, first === 1 ? y : rows - 1, first === 1 ? line : columns - 1);
      break;
    case 'K': screen.erase(y, first === 0 ? line : 0, y, first === 1 ? line : columns - 1); break;
    case 'L': if (isInRegion) screen.insert(y, screen.bottom, count); break;
    case 'M': if (isInRegion) screen.remove(y, screen.bottom, count); break;
    case 'P': screen.cells[y].splice(line, most); screen.cells[y].push(...blanks); break;
    case '@': screen.cells[y].splice(columns - most, most); screen.cells[y].splice(line, 0, ...blanks); break;
    case 'c': screen.reply('\x1b[?1;2c'); break;
    case 'g': if (first === 3) screen.stops.fill(false); else screen.stops[line] = false; break;
    case 'm': for (const number of numbers) screen.style = styleAfter(screen.style, number); break;
    case 'n': screen.reply(first === 6 ? `\x1b[${y + 1};${line + 1}R` : '\x1b[0n'); break;
    case 'r': setRegion(screen, (first || 1) - 1, (second || rows) - 1); break;
    case 'h': case 'l': if (isPrivate) for (const number of numbers) setMode(screen, number, letter === 'h'); break;
    default:
  }
}

function styleAfter(style, number) {
  switch (number) {
    case 0: return PLAIN;
    case 1: return style | BOLD;
    case 4: return style | UNDERLINE;
    case 5: case 7: return style | REVERSE;
    case 22: return style & ~BOLD;
    case 24: return style & ~UNDERLINE;
    case 25: case 27: return style & ~REVERSE;
    default: return style;
  }
}

function setRegion(screen, top, bottom) {
  if (top >= bottom || bottom >= screen.rows) return;
  Object.assign(screen, { top, bottom });
  screen.go(screen.hasOrigin ? top : 0, 0);
}

function setMode(screen, number, isSet) {
  switch (number) {
    case 1: screen.cursorKeys = isSet; break;
    case 2: screen.isVt52 = !isSet; break;
    case 3: screen.fill(' '); screen.go(0, 0); break;
    case 6: screen.hasOrigin = isSet; screen.go(isSet ? screen.top : 0, 0); break;
    case 7: screen.wraps = isSet; break;
    case 25: screen.showsCursor = isSet; break;
    default:
  }
}

// Finds the codes of a VT52 and of a VT100 in bytes, with bounds: a number is at most MOST_NUMBER, a sequence has at most MOST_NUMBERS
// of them, and a byte takes no longer the more came before it. What has codes of later terminals (a colour, a title) is passed over.
//   const sequences = new Sequences(screen); sequences.put(byte)   calls show, control, escape, choose, go or sequence of the screen
'use strict';

const MOST_NUMBER = 9999, MOST_NUMBERS = 16;

class Sequences {
  constructor(screen) { Object.assign(this, { screen, state: 'text' }); }

  put(byte) {
    if (byte === 127) return;
    if (byte < 32) { this.control(byte); return; }
    const c = String.fromCharCode(byte), { screen } = this;
    switch (this.state) {
      case 'escape': this.escape(c); break;
      case 'row': this.row = byte - 32; this.state = 'column'; break;
      case 'column': this.state = 'text'; screen.go(this.row, byte - 32); break;
      case 'sequence': this.part(byte, c); break;
      case 'one': this.state = 'text'; screen.choose(this.chosen, c); break;
      case 'string': break;
      default: screen.show(c);
    }
  }

  // A control character is met in the middle of a code too; ESC begins another one, and CAN and SUB break it off.
  control(byte) {
    const isString = this.state === 'string';
    if (byte === 27) this.state = 'escape';
    else if (byte === 24 || byte === 26 || isString) this.state = 'text';
    if (byte !== 27 && !(byte === 7 && isString)) this.screen.control(byte);
  }

  // What follows ESC: text of a title or of a device ends at the next control character.
  escape(c) {
    this.state = 'text';
    if (c === '[') Object.assign(this, { state: 'sequence', numbers: [0], isPrivate: false, isKnown: true });
    else if (c === 'Y') this.state = 'row';
    else if (c >= ' ' && c <= '/') Object.assign(this, { state: 'one', chosen: c });
    else if ('PX]^_'.includes(c) && !this.screen.isVt52) this.state = 'string';
    else this.screen.escape(c);
  }

  // What follows ESC [: numbers, a mark that makes it private, and the letter that ends it.
  part(byte, c) {
    const { numbers } = this;
    if (c >= '0' && c <= '9') numbers.push(Math.min(MOST_NUMBER, 10 * numbers.pop() + byte - 48));
    else if (c === ';') { if (numbers.length < MOST_NUMBERS) numbers.push(0); } else if (c === '?') this.isPrivate = true;
    else if (byte < 64) this.isKnown = false;
    else {
      this.state = 'text';
      if (this.isKnown) this.screen.sequence(c, numbers, this.isPrivate);
    }
  }
}

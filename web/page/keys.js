// Keys of the browser as bytes of a VT52's or VT100's keyboard:
//   keysOf(event, screen)   the bytes of a key event, or null where the key isn't the terminal's
'use strict';

const NAMED = { Enter: [13], Backspace: [127], Delete: [127], Tab: [9], Escape: [27] };
const ARROWS = { ArrowUp: 'A', ArrowDown: 'B', ArrowRight: 'C', ArrowLeft: 'D', Home: 'H', End: 'F' };
const FUNCTIONS = { F1: 'P', F2: 'Q', F3: 'R', F4: 'S' };
// The keypad's codes where the program asks for them (ESC =); where a VT100 has a comma, other keypads have a plus.
const KEYPAD = {
  Numpad0: 'p', Numpad1: 'q', Numpad2: 'r', Numpad3: 's', Numpad4: 't', Numpad5: 'u', Numpad6: 'v', Numpad7: 'w', Numpad8: 'x', Numpad9: 'y',
  NumpadSubtract: 'm', NumpadAdd: 'l', NumpadComma: 'l', NumpadDecimal: 'n', NumpadEnter: 'M',
};

function keysOf(event, screen) {
  const { key } = event;
  if (event.altKey || event.metaKey) return null;
  if (event.ctrlKey) return event.shiftKey ? null : controlKey(key);
  if (key === 'Tab' && event.shiftKey) return null;
  const pad = screen.keypad && KEYPAD[event.code];
  if (pad) return codes((screen.isVt52 ? '\x1b?' : '\x1bO') + pad);
  if (NAMED[key]) return NAMED[key];
  const letter = ARROWS[key] ?? FUNCTIONS[key];
  if (letter) {
    if (screen.isVt52) return codes('\x1b' + letter);
    return codes(ARROWS[key] && !screen.cursorKeys ? '\x1b[' + letter : '\x1bO' + letter);
  }
  return key.length === 1 && key.charCodeAt(0) < 127 ? [key.charCodeAt(0)] : null;
}

function controlKey(key) {
  if (key === ' ') return [0];
  const c = key.toUpperCase();
  return c.length === 1 && c >= '@' && c <= '_' ? [c.charCodeAt(0) & 31] : null;
}

const codes = (text) => [...text].map((c) => c.charCodeAt(0));

// What is pasted: the end of a line is the key Return.
const keysOfText = (text) => codes(text.replace(/\r?\n/g, '\r'));

// The characters of a text that have no key on this keyboard, each once.
const KEYLESS = /[^\t\n\r\x1b -~]/gu, keylessIn = (text) => [...new Set(text.match(KEYLESS))];

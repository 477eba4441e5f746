// A page in a browser as a person has it: keys, mouse, paste and drop, and the page's own state by eval. What differs from
// browser to browser is in chromium.js and firefox.js, each of which has a Page with
//   navigate(url)        begins to open an address
//   replace()            closes the tab and opens another one
//   tab()                another tab of the same browser, as a Page; leave() closes it
//   eval(expression)     the value of an expression in the page, awaited if it is a promise
//   press(strokes)       keys, one after another: { key, ctrl, shift }, key as a KeyboardEvent has it
//   compose(text)        text of an input method, as a keyboard on the glass has one
//   mouse(steps)         { at: 'move', x, y }, { at: 'down', x, y } and { at: 'up', x, y }, in pixels of the window
//   drop(file, selector) drops a file on an element
//   resize(width, height)  the size of the window, and with no arguments the one that it began with
//   capture()            a picture, as the bytes of a PNG
//   before(source)       has a script run before those of each page; gives what ends that
//   named(roles, names)  { nameless, lacking, count }: roles of controls without a name, names that none has, how many there are
//   close()              ends the browser, and kill() by a signal, with all its processes
'use strict';
const fs = require('fs');

const MOST_MS = +(process.env.UNTIL ?? 120000);   // how long anything is waited for
const sleep = (ms) => new Promise((done) => { setTimeout(done, ms); });
const KEYS = { '\r': 'Enter', '\b': 'Backspace', '\t': 'Tab' };

class Page {
  constructor() { this.errors = []; }

  // The page that is there may stay for a while.
  async goTo(url) {
    await this.eval('delete document.documentElement.dataset.ready');
    await this.navigate(url);
    await this.until("document.documentElement.dataset.ready === 'yes'");
  }

  // Closes the page, as a person closes its tab, and opens it anew.
  async reopen(url) {
    await this.replace();
    await this.goTo(url);
  }

  async until(expression) {
    for (const end = Date.now() + MOST_MS; ;) {
      if (await this.eval(expression).catch(() => false)) return;
      if (Date.now() > end) throw new Error(`never came: ${expression}; errors of the page: ${this.errors.join(' | ')}`);
      await sleep(20);
    }
  }

  key(key, held = {}) { return this.press([{ key, ...held }]); }

  // A control character is a letter with the key Ctrl.
  type(text) {
    return this.press([...text].map((c) => {
      if (KEYS[c]) return { key: KEYS[c] };
      return c < ' ' ? { key: String.fromCharCode(c.charCodeAt(0) + 96), ctrl: true } : { key: c };
    }));
  }

  async click(selector) {
    const at = await this.middleOf(selector);
    await this.mouse(['move', 'down', 'up'].map((step) => ({ at: step, ...at })));
  }

  // The middle of an element, once the mouse comes to it there and it lies still.
  async middleOf(selector) {
    const look = `(() => { const it = document.querySelector(${JSON.stringify(selector)}); it.scrollIntoView({ block: 'nearest' });
      const { left, right, top, bottom } = it.getBoundingClientRect(), x = Math.round((left + right) / 2), y = Math.round((top + bottom) / 2);
      return it.contains(document.elementFromPoint(x, y)) ? { x, y } : null; })()`;
    for (let end = Date.now() + MOST_MS, was = null; ;) {
      const at = await this.eval(look).catch(() => null);
      if (at && at.x === was?.x && at.y === was.y) return at;
      if (Date.now() > end) throw new Error(`nothing can be clicked at ${selector}`);
      was = at;
      await sleep(20);
    }
  }

  // Selects by the mouse from the beginning of an element's text to its end.
  async select(selector) {
    const { left, right, y } = await this.eval(`(() => { const range = document.createRange();
      range.selectNodeContents(document.querySelector(${JSON.stringify(selector)}));
      const { left, right, top, bottom } = range.getBoundingClientRect();
      return { left: Math.round(left), right: Math.round(right), y: Math.round((top + bottom) / 2) }; })()`);
    await this.mouse([
      { at: 'move', x: left + 1, y }, { at: 'down', x: left + 1, y }, { at: 'move', x: Math.round((left + right) / 2), y },
      { at: 'move', x: right + 2, y }, { at: 'up', x: right + 2, y },
    ]);
  }

  async paste(text) {
    await this.eval(`navigator.clipboard.writeText(${JSON.stringify(text)})`);
    await this.key('v', { ctrl: true });
  }

  // A picture at a size, in a face of the page.
  async shot(file, { width, height, face }) {
    await this.resize(width, height);
    await this.eval(`setFace(${JSON.stringify(face)})`);
    await sleep(200);
    fs.writeFileSync(file, await this.capture());
    await this.eval('app.view.follow(); app.view.toEnd()');   // a picture of the whole page scrolls the screen
  }
}

module.exports = { Page, sleep, MOST_MS };

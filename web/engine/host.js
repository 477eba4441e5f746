// The host of a console: what it takes and gives, its files, which lie in the module's memory too, and the record, which ./p11 plays again.
//   const host = new Host(exports, { kwords: 28 }); host.keys(bytesOf('start 1000\rtalk\r'));
//   while (host.step(100000) === WANT.step) /* .. */; host.regs().turns
// It tells what there is to see: onscreen(bytes, isTyped), isTyped where the machine has typed them, and onrest() where keys are wanted.
// No DOM and no timers: whoever has it makes steps as often as it likes. Works in node too.
'use strict';

const MOST_TURNS = 100000000, NO_FILE_NAME = '/dev/null', AGAIN = 'the-record', PROMPT = 'p11> ', QUESTION = '(y, or another key)? ';
const INTERRUPT = 3, ESCAPE = 5, END_KEY = 5, CUT_FRONT = 21, MOST_KEYS = 64;

// So many turns as lines of a record.
function stepsOf(turns) {
  const lines = [];
  for (let left = turns; left > 0; left -= MOST_TURNS) lines.push(`step ${Math.min(left, MOST_TURNS)}`);
  return lines;
}

class Host {
  // past: lines of earlier dialogues. script: the name of a file whose lines come first.
  constructor(exports, { kwords, past = [], script }) {
    this.console = new Dialogue(exports, { kwords });
    this.record = [];         // the lines of the record
    this.recorded = 0;        // turns that they make
    this.turns = 0;           // all turns
    this.want = WANT.step;
    this.queue = [];          // keys that the console wasn't given yet
    this.waiting = 0;         // those that it hasn't taken yet
    this.ticks = 0;           // and ticks
    this.isRunning = false;
    this.hasSliced = false;   // whether the last step made turns, so that the next one shows what was typed in them
    this.isTalk = false;      // whether the line that was typed last is a talk
    this.isScripted = script !== undefined;   // whether lines of a file may be under way
    this.isAtPrompt = false;  // whether the screen ends with the prompt, and no line is begun
    this.isAsked = false;     // whether it ends with a question
    this.isAgain = false;     // whether a record is played again
    this.files = new Map();   // what lies where, by name
    this.written = [];        // the names that may be written over unasked
    this.mounted = new Array(8).fill('');   // the file on each drive
    this.listen();
    this.store(NO_FILE_NAME, new Uint8Array(0));
    for (const line of past) this.console.remember(bytesOf(line));
    if (script !== undefined) this.console.open(script);
  }

  listen() {
    this.onscreen = () => {};
    this.onrest = () => {};
    this.onpast = () => {};
  }

  // -- what it is, as plain data beside the module's memory; and the same again
  state() {
    const { console: { x, ...places }, record, onscreen, onrest, onpast, ...own } = this;
    return structuredClone({ places, own, lines: record.length });
  }

  static revived(exports, { places, own, lines }, record) {
    const console_ = Object.assign(Object.create(Dialogue.prototype), { x: exports, ...places });
    const host = Object.assign(Object.create(Host.prototype), structuredClone(own), { console: console_, record: record.slice(0, lines) });
    host.listen();
    return host;
  }

  // Whether it can be told by its record behind this: nothing waits, and no line is half done or asks.
  isClean() {
    const { want } = this, isBetween = want === WANT.keys || want === WANT.idle || (want === WANT.step && this.isRunning);
    return isBetween && this.waiting === 0 && this.ticks === 0 && !this.isAgain && !this.isAsked;
  }

  regs() { return this.console.regs(); }

  // -- events
  keys(bytes) { for (const byte of bytes) this.queue.push(byte); }

  type(text) { this.keys(bytesOf(text)); }

  // Whether a talk is under way, or typed and not begun yet.
  get talks() { return /(^|\r)talk\r/.test(textOf(Uint8Array.from(this.queue))) || (this.isTalk && (this.isRunning || this.want === WANT.step)); }

  // Keys are given a line at a time, so that it is known whether any wait; in a run all up to one that may end it.
  giveKeys() {
    if (this.queue.length === 0 || !(this.isRunning || this.want === WANT.keys)) return;
    const urgent = this.isRunning ? this.queue.findIndex((key) => key === ESCAPE || key === INTERRUPT) : -1;
    if (this.waiting > 0 && urgent < 0) return;
    const end = urgent < 0 ? this.queue.slice(0, MOST_KEYS).findIndex((key) => key === 10 || key === 13) : urgent;
    const given = this.queue.splice(0, end < 0 ? MOST_KEYS : end + 1);
    const text = textOf(Uint8Array.from(given));
    if (!this.isRunning && text.endsWith('\r')) this.isTalk = isTalk(text);
    this.waiting += given.length;
    this.console.keys(Uint8Array.from(given));
  }

  ticked() {
    this.ticks++;
    this.console.ticked();
  }

  // -- a step: what is wanted behind it. Files that it has are given.
  step(turns) {
    this.giveKeys();
    this.want = this.console.step(turns);
    const made = this.regs().turns, hasSliced = made !== this.turns;
    this.turns = made;
    this.takeScreen();
    this.takeRecord();
    this.hasSliced = hasSliced;
    if (!this.isRunning && (hasSliced || this.want === WANT.idle)) Object.assign(this, { isRunning: true, waiting: 0 });
    switch (this.want) {
      case WANT.keys: this.rests(); break;
      case WANT.idle: this.isScripted = false; break;
      case WANT.end: this.isRunning = false; break;
      case WANT.fetch: if (this.files.has(this.console.name())) this.found(); break;
      case WANT.put: this.put(); break;
      default:
    }
    return this.want;
  }

  // Keys are wanted: nothing is under way. An ESC that stands alone was no key.
  rests() {
    Object.assign(this, { waiting: 0, isRunning: false, isScripted: false });
    this.console.paused();
    this.onrest();
  }

  takeScreen() {
    const bytes = this.console.screen();
    if (bytes.length === 0) return;
    this.isAtPrompt = !this.hasSliced && textOf(bytes.subarray(-PROMPT.length)) === PROMPT;
    this.isAsked = !this.hasSliced && isQuestion(textOf(bytes.subarray(-QUESTION.length)));
    if (this.isAtPrompt) Object.assign(this, { isRunning: false, isScripted: false });
    const meant = /^= (.*)\n/.exec(textOf(bytes.subarray(0, 100)));
    if (meant && !this.hasSliced) this.isTalk = isTalk(meant[1]);
    this.onscreen(bytes, this.hasSliced);
  }

  // Lines of a record that is played again are there already.
  takeRecord() {
    const past = this.console.past(), text = textOf(this.console.record());
    if (past.length > 0) this.entered(textOf(past).trimEnd());
    for (const line of text.split('\n').slice(0, -1)) this.note(line);
  }

  // A line was typed; where another one was meant, that is said.
  entered(line) {
    this.isTalk = isTalk(line);
    if (!this.isAgain) this.onpast(line);
  }

  note(line) {
    const [word, first, name] = line.split(' ');
    if (word === 'mount') this.mounted[parseInt(first, 8)] = name;
    else if (word === 'unmount') this.mounted[parseInt(first, 8)] = '';
    else if (word === 'tick') this.ticks = Math.max(0, this.ticks - 1);
    else if (word === 'key' && this.isRunning) this.waiting = Math.max(0, this.waiting - first.replace(/\\.../g, '.').length);
    if (this.isAgain) return;
    if (word === 'step') this.recorded += +first;
    this.record.push(line);
  }

  // The record with the turns of a run that goes on.
  lines() { return [...this.record, ...stepsOf(this.turns - this.recorded)]; }

  recordText() { return this.lines().map((line) => line + '\n').join(''); }

  // -- files
  store(name, bytes) {
    this.forget(name);
    this.files.set(name, { at: this.console.kept(bytes), size: bytes.length });
  }

  forget(name) {
    const file = this.files.get(name);
    if (file) this.console.x.page_free(file.at);
    this.files.delete(name);
  }

  file(name) {
    const { at, size } = this.files.get(name) ?? {};
    return at === undefined ? null : this.console.view().slice(Number(at), Number(at) + size);
  }

  // Gives the console the file that it wants, which is there.
  found() {
    const name = this.console.name(), { at, size } = this.files.get(name), { isPack } = this.console.request();
    this.console.done('fetched', at, BigInt(size));
    if (isPack) this.written.push(name);
    else this.isScripted = true;
    this.want = WANT.step;
  }

  missed() {
    this.console.missed(FILE.missing);
    this.want = WANT.step;
  }

  // Writes the file that the console wants written. A person is asked before another one goes; not where that was done before.
  put() {
    const name = this.console.name(), { mayReplace } = this.console.request();
    const isAsked = !mayReplace && !this.isAgain && this.files.has(name) && !this.written.includes(name);
    if (!isAsked) {
      this.store(name, this.console.image());
      this.written.push(name);
    }
    this.console.put(isAsked ? FILE.there : FILE.written);
    this.want = WANT.step;
  }

  // Names that begin as the word at the cursor does, of these and its own; of those behind a further / the folder.
  names(others) {
    const front = this.console.front(), all = [...this.files.keys(), ...others].filter((name) => name.startsWith(front) && name !== NO_FILE_NAME);
    const ends = all.map((name) => name.slice(0, (name.indexOf('/', front.length) + 1) || name.length));
    this.console.names([...new Set(ends)].toSorted());
    this.want = WANT.step;
  }

  // -- lines of a record that are done again: what goes on is ended before
  again(lines) {
    this.isAgain = true;
    this.store(AGAIN, bytesOf(lines.map((line) => line + '\n').join('')));
    this.queue = this.isRunning ? [ESCAPE] : [];
    this.cutLine();
    this.type(`do ${AGAIN}\r`);
  }

  // What was begun of a line, and what was asked, is given up.
  cutLine() { if (!this.isRunning && !this.isAtPrompt) this.keys([END_KEY, CUT_FRONT]); }

  // Behind that the record is this, which has all turns.
  isThere(lines) {
    this.forget(AGAIN);
    Object.assign(this, { isAgain: false, record: [...lines], recorded: this.turns });
  }
}

const isTalk = (line) => /^\s*(talk|continue)\s*$/.test(line), isQuestion = (text) => text.endsWith(QUESTION);

// The lines that were recorded since a state: of the first runs the turns that were made by then are left out.
function tailOf({ lines: from, own }, lines, steps) {
  const script = [...lines.slice(from), ...stepsOf(steps)];
  for (let made = own.turns - own.recorded; made > 0 && script.length > 0;) {
    const turns = +script.shift().split(' ')[1];
    if (turns > made) script.unshift(`step ${turns - made}`);
    made -= turns;
  }
  return script;
}

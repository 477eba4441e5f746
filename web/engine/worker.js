// The engine: a console with its machine in a worker. It takes calls as messages { id, call, args } and answers { id, result } or
// { id, error }; what happens by itself comes as { event, .. }:
//   typed { bytes }, said { text }   the machine has typed, the console has said something
//   runs { isRunning, isTalk }   a run has begun or ended
//   rests                   the console wants keys, and something was done since it did
//   wants { name }          it wants a file that isn't here: the call `found` answers
//   past { line }           a line for the history
//   asks { text }           a line of the page has led to this question, which a key answers; '' where it is over
//   over                    the dialogue is over
//   lamps { .. }            how often each lamp was lit since the last of them, and the registers
//   journal { lines, steps, turns, pages }   what the record has gained, and now and then the changed pages of the memory
//   lost { why }            the module has trapped: this machine is gone
// Steps are made for some milliseconds at a time, so that a key that comes meanwhile is met at once.
'use strict';

const SLICE_MS = 4, LAMPS_MS = 33, JOURNAL_MS = 250, PAGES_MS = 1000, MOST_LATE_TICKS = 3, MOST_STEPS = 20;

class Engine {
  constructor(post) {
    this.post = post;
    this.host = null;
    this.pages = null;         // what is kept of the module's memory; null where nothing is
    this.opened = 0;           // how many machines were asked for
    this.isLost = false;       // whether the module has trapped under this machine
    this.isHeld = true;        // whether no step is made
    this.isWanting = false;    // whether a file is waited for
    this.isRunning = false;    // as it was told
    this.slice = 20000;        // turns of the next slice
    this.hertz = 0;            // ticks of the line clock in a second of the wall, or 0
    this.pace = 0;             // turns in a second at most, or 0: as fast as it goes
    this.isKeeping = false;    // whether pages that were taken aren't kept yet
    this.left = null;          // lines that a session which goes on has still to do, before anything of it is kept; null behind them
    this.saying = null;        // lines of the page that are typed, and what is said meanwhile
    this.later = [];           // what is to be done behind them
    this.isMuted = false;      // whether what is said isn't shown
    this.unsaid = '';          // what is said once the record has been told
    this.folds = null;         // of a script that boots, how many lines were answered OK and not told yet: { name, count }
    this.typed = null;         // what was typed while a record is played again
    this.waiters = [];         // who waits until keys are wanted
    this.restMark = '';        // what there was when they were
    this.lamps = null;
    this.timer = 0;
    this.isAwake = false;
    this.at = { lamps: 0, journal: 0, pages: 0, tick: 0, budget: 0, rate: 0 };
    this.sent = { lines: 0, turns: 0, mark: '' };   // what was told of the record, and of the memory
    this.channel = new MessageChannel();
    this.channel.port1.onmessage = () => {
      this.isAwake = false;
      try { this.go(); } catch (error) { this.lose(error); }
    };
    setInterval(() => this.journal(), PAGES_MS);
  }

  // Takes a console, of whose record so many lines are kept.
  begin(host, pages, lines) {
    const kept = this.sum ? pages : null;
    this.giveUp();
    Object.assign(this, { host, pages: kept, isLost: false, isHeld: true, isWanting: false, isKeeping: false, isMuted: false, unsaid: '' });
    host.onscreen = (bytes, isTyped) => this.shows(bytes, isTyped);
    host.onrest = () => this.rests();
    host.onpast = (line) => this.post({ event: 'past', line });
    this.sent = { lines, turns: host.turns, mark: this.mark() };
    this.at.rate = host.turns;
    this.tellRun();
    this.lit();
  }

  // A trap leaves no machine that can be trusted; it is told once, and what was done so far can still be had as a record.
  // What isn't a trap is thrown again.
  lose(error) {
    if (!isTrap(error)) throw error;
    if (this.isLost || !this.host) return;
    this.isLost = true;
    this.giveUp();
    this.post({ event: 'lost', why: String(error.message ?? error) });
  }

  wake() {
    if (this.isAwake || this.isLost || this.isHeld || this.isWanting) return;
    this.isAwake = true;
    this.channel.port2.postMessage(0);
  }

  // Comes back after so many milliseconds, where nothing wakes it before.
  wakeIn(ms) {
    clearTimeout(this.timer);
    this.timer = setTimeout(() => this.wake(), ms);
  }

  // Steps, until something is waited for or the time is up.
  go() {
    if (this.isLost || this.isHeld || this.isWanting) return;
    const { host } = this, began = performance.now();
    this.tick(began);
    for (let now = began; now - began < SLICE_MS && !this.isHeld; now = performance.now()) {
      const most = this.allowed(now);
      if (most === 0) { this.wakeIn(4); this.shown(now); return; }
      const turns = Math.min(this.slice, most), was = host.turns, want = host.step(turns), made = host.turns - was;
      this.tellSaid();
      if (made === turns) this.slice = nextSlice(turns, performance.now() - now);
      if (made > 0) {
        this.at.budget = now;
        this.sample();
      }
      if (host.isRunning !== this.isRunning) this.tellRun();
      if (host.want !== WANT.step && !this.goesOn(want)) { this.shown(now, want); return; }
    }
    this.shown(began);
    this.wake();
  }

  // Whether steps go on all the same behind what a step wants.
  goesOn(want) {
    const { host } = this;
    switch (want) {
      case WANT.keys: case WANT.idle: return host.queue.length > 0 && host.waiting === 0;
      case WANT.names: host.names(this.ships); return true;
      case WANT.fetch: this.isWanting = true; this.post({ event: 'wants', name: host.console.name() }); return false;
      case WANT.end: this.isHeld = true; this.journal(); this.post({ event: 'over' }); return false;
      case WANT.memory: throw new RangeError('there is no memory for a step');
      default: return true;
    }
  }

  // What is to be told now and then, and at once where something is waited for.
  shown(now, want = WANT.step) {
    const rests = want !== WANT.step, isIdle = want === WANT.idle;
    if (rests || now - this.at.lamps >= LAMPS_MS) this.lit(now, isIdle);
    this.journal(rests);
    if (isIdle && this.hertz > 0) this.wakeIn(Math.max(1, this.at.tick - performance.now()));
  }

  shows(bytes, isTyped) {
    if (this.typed) { if (isTyped) this.typed.push(bytes); return; }
    if (isTyped) {
      this.unfold();
      this.tellSaid();
      this.post({ event: 'typed', bytes });
      return;
    }
    const text = this.folded(textOf(bytes));
    if (this.saying) this.saying.text += text;
    if (!this.isMuted) this.unsaid += text;
  }

  // The answers OK to the lines of a script that boots are told in one line.
  folded(text) {
    const { folds } = this;
    if (!folds) return text;
    const rest = text.replace(/^OK\n/gm, () => { folds.count++; return ''; });
    if (rest !== '') this.unfold();
    return rest;
  }

  unfold() {
    if (!this.folds?.count) return;
    this.unsaid += `(${this.folds.name}: ${this.folds.count === 1 ? 'one line' : `${this.folds.count} lines, each`} OK)\n`;
    this.folds.count = 0;
  }

  // What is said comes behind the lines that it is said of.
  tellSaid() {
    if (this.unsaid === '') return;
    if (this.host.record.length > this.sent.lines) this.journal();
    this.post({ event: 'said', text: this.unsaid });
    this.unsaid = '';
  }

  tellRun() {
    this.isRunning = this.host.isRunning;
    if (this.typed) return;
    if (this.isRunning && !this.saying) this.isMuted = false;
    this.post({ event: 'runs', isRunning: this.isRunning, isTalk: this.isRunning && this.host.isTalk });
  }

  // -- keys are wanted: lines of the page come next
  rests() {
    if (this.host.queue.length > 0) return;
    if (this.host.isRunning !== this.isRunning) this.tellRun();
    this.release();
    this.folds = null;
    if (this.saying) { if (isQuestion(this.saying.text)) this.asks(); else this.nextLine(); }
    else if (!this.typed) this.isMuted = false;
    const mark = this.mark();
    if (this.saying || this.typed || mark === this.restMark) return;
    this.restMark = mark;
    this.post({ event: 'rests' });
  }

  release() { for (const done of this.waiters.splice(0)) done(); }

  // Nobody waits any more.
  giveUp() {
    this.release();
    this.answered();
    this.saying?.done([]);
    this.saying = null;
    for (const it of this.later.splice(0)) it.drop?.();
  }

  atRest() { return new Promise((done) => { this.waiters.push(done); this.wake(); }); }

  // A line of the page has led to a question: a person answers it, and the lines go on behind that.
  asks() {
    const { saying } = this, { text } = saying;
    if (saying.isAsked) return;
    saying.isAsked = true;
    if (this.isMuted) this.unsaid += text;
    this.isMuted = false;
    this.post({ event: 'asks', text: text.slice(text.lastIndexOf('\n') + 1) });
  }

  // Whether a question stood, which doesn't any more.
  answered() {
    if (!this.saying?.isAsked) return false;
    this.saying.isAsked = false;
    this.post({ event: 'asks', text: '' });
    return true;
  }

  // Keys of a person: one that answers a question goes there, and else they come behind the lines.
  pressed(bytes) {
    if (!this.answered()) { this.behind(() => this.host.keys(bytes)); return; }
    this.host.keys(bytes.slice(0, 1));
    this.wake();
  }

  // Does it behind the lines that the page says.
  behind(act) {
    if (this.saying) this.later.push(act); else act();
    this.wake();
  }

  // Types lines, one after another, up to one that is refused: what is said of each. A talk is ended before them, and goes on behind.
  say(lines, isSilent) {
    return new Promise((done) => {
      const begin = () => {
        const { host } = this, goesOn = host.talks;
        this.isMuted = isSilent && (goesOn || host.isAtPrompt);
        this.saying = { left: [...lines], done, goesOn, text: '', told: null };
        if (goesOn) host.keys([ESCAPE]);
        else if (host.want === WANT.keys && host.queue.length === 0) {
          host.cutLine();
          if (host.queue.length === 0) this.nextLine();
        }
      };
      begin.drop = () => done([]);
      this.behind(begin);
    });
  }

  nextLine() {
    const { saying, host } = this;
    if (saying.told) saying.told.push(saying.text);
    else {
      saying.told = [];
      if (saying.goesOn && !/^STOP key /m.test(saying.text)) {   // the run has ended by itself
        saying.goesOn = false;
        if (this.isMuted) this.unsaid += saying.text;
      }
    }
    const line = isRefused(saying.text) && saying.told.length > 0 ? undefined : saying.left.shift();
    saying.text = '';
    if (line !== undefined) { host.type(`${line}\r`); return; }
    this.saying = null;
    if (saying.goesOn) host.type('talk\r'); else this.isMuted = false;
    saying.done(saying.told);
    while (this.later.length > 0 && !this.saying) this.later.shift()();
  }

  // -- the clock of the wall. Ticks that are late by much are left out.
  tick(now) {
    if (this.hertz === 0 || !this.host.isRunning || this.host.isScripted || this.typed) return;
    if (this.at.tick === 0 || now - this.at.tick > 1000 * MOST_LATE_TICKS / this.hertz) this.at.tick = now;
    for (; this.at.tick <= now; this.at.tick += 1000 / this.hertz) this.host.ticked();
  }

  // -- the governor: how many turns may be made now
  allowed(now) {
    if (this.pace === 0 || !this.host.isRunning || this.host.isScripted || this.typed) return MOST_TURNS;
    const passed = Math.min(50, now - this.at.budget);
    const most = Math.floor(this.pace * passed / 1000);
    return most < 100 ? 0 : most;
  }

  // -- the lamps: how often each was lit in the slices since the last that were sent
  sample() {
    const regs = this.host.regs();
    this.lamps ??= { count: 0, address: new Array(18).fill(0), data: new Array(16).fill(0), user: 0, virtual: 0, busy: 0 };
    const lamps = this.lamps;
    lamps.count++;
    for (let bit = 0; bit < 16; bit++) {
      lamps.address[bit] += regs.pc >> bit & 1;
      lamps.data[bit] += regs.general[0] >> bit & 1;
    }
    lamps.user += (regs.ps >> 14) === 3 ? 1 : 0;
    lamps.virtual += regs.sr0 & 1;
    lamps.busy += regs.mark === 'ready' ? 1 : 0;
    lamps.regs = regs;
  }

  lit(now = performance.now(), isIdle = false) {
    if (!this.lamps) this.sample();
    const { turns, isRunning, waiting, queue } = this.host, rate = (turns - this.at.rate) / (now - this.at.lamps) * 1000;
    this.post({ event: 'lamps', ...this.lamps, isRunning, isIdle, keys: waiting + queue.length, rate });
    this.lamps = null;
    this.at.lamps = now;
    this.at.rate = turns;
  }

  // -- what the record has gained, for whoever keeps it: at once where something was done or the machine waits, else a few times
  // a second
  journal(isNow = true) {
    if (this.isLost || !this.host || this.left || this.host.isAgain || this.typed) return;
    const { record, recorded, turns } = this.host, now = performance.now(), pages = this.changes(now);
    const isDue = isNow || record.length > this.sent.lines || now - this.at.journal >= JOURNAL_MS;
    if (!pages && (!isDue || (record.length === this.sent.lines && turns === this.sent.turns))) return;
    this.at.journal = now;
    const lines = record.slice(this.sent.lines), gained = { from: this.sent.lines, lines, steps: turns - recorded, turns, pages };
    this.post({ event: 'journal', ...gained }, pages?.rows.map(({ bytes }) => bytes.buffer) ?? []);
    Object.assign(this.sent, { lines: record.length, turns });
  }

  // What changes where the module's memory does.
  mark() { return [this.host.turns, this.host.record.length, ...[...this.host.files].map(([name, { at }]) => name + at)].join(); }

  // The pages that have changed, once a second at most, and no others before those are kept.
  changes(now) {
    const isDue = this.pages && !this.isKeeping && now - this.at.pages >= PAGES_MS && !this.saying && this.host.isClean();
    if (!isDue || this.mark() === this.sent.mark) return null;
    const taken = this.pages.take(this.host);
    this.sent.mark = this.mark();
    this.at.pages = now;
    this.isKeeping = taken !== null;
    if (taken) Object.assign(taken.head, { module: this.sum, machine: this.opened });
    return taken;
  }
}

// A trap of the module, or a stack that is used up, which Firefox calls an InternalError.
const isTrap = (error) => error instanceof WebAssembly.RuntimeError || error instanceof RangeError || error?.name === 'InternalError';

// Whether what was said of a line is a refusal, by the console or by a person.
const isRefused = (text) => /^\? \d+ |\? no$/m.test(text);

// How many turns the next slice has, where one of so many took so long: twice as many at most, or half.
function nextSlice(turns, took) {
  const times = Math.max(0.5, Math.min(2, SLICE_MS / Math.max(took, 0.05)));
  return Math.round(Math.max(1000, Math.min(5e6, turns * times)));
}

// A module by its SHA-256; nothing where the browser has none, as on a page that came without TLS.
async function sha256(bytes) {
  const sum = await globalThis.crypto?.subtle?.digest('SHA-256', bytes);
  return sum && Array.from(new Uint8Array(sum), (byte) => byte.toString(16).padStart(2, '0')).join('');
}

// What can be called. Each takes its arguments as an object.
const CALLS = {
  // A console is made and held. The one that is there ends at once, and stays until the new one takes its place in one step: between two
  // awaits anything else may be asked. Of two that are asked for at a time the last is made. Where a session goes on (kept: { lines,
  // steps, pages }), it is put together of its pages, if they are of this module: whether it was, whether a script
  // was under way then, and how many lines of its record count.
  async open(engine, { module, kwords, past, ships, script, kept }) {
    const number = ++engine.opened;
    engine.journal();
    engine.isHeld = true;
    engine.ships = ships;
    engine.sum ??= await sha256(module);
    engine.compiled ??= await WebAssembly.compile(module);
    // A module that has trapped isn't used again: each machine gets an instance of its own.
    const instance = async () => new Pages((await WebAssembly.instantiate(engine.compiled, {})).exports);
    const isKept = kept?.pages?.head.module === (engine.sum ?? null);
    let pages = await instance();
    const revived = isKept ? pages.revive(kept.pages, kept.lines) : null;
    if (isKept && !revived) pages = await instance();
    if (number !== engine.opened) return null;
    const host = revived ?? new Host(pages.x, { kwords, past, script });
    // Lines of a file that were under way are done again by the console itself.
    const lines = revived?.isScripted ? host.record.length : kept?.lines.length ?? 0;
    engine.begin(host, pages, lines);
    engine.folds = script === undefined ? null : { name: script, count: 0 };
    if (!kept) engine.left = null;
    else if (revived?.isScripted) engine.left = [];
    else engine.left = revived ? tailOf(kept.pages.head.state, kept.lines, kept.steps) : [...kept.lines, ...stepsOf(kept.steps)];
    engine.all = kept && [...kept.lines, ...stepsOf(kept.steps)];
    return { isRevived: revived !== null, isScripted: revived?.isScripted ?? false, lines };
  },

  // Does what a session that goes on has still to do: what was typed then, how many turns were made in all, and whether a run goes on.
  async again(engine) {
    const { host, left, all } = engine, typed = [];
    if (left.length > 0) {
      engine.typed = typed;
      host.again(left);
      engine.isHeld = false;
      await engine.atRest();
      Object.assign(engine, { typed: null, isHeld: true });
      if (host !== engine.host) return { typed, turns: 0 };
      host.isThere(all);
      engine.tellRun();
    }
    engine.left = null;
    return { typed, turns: host.turns, isRunning: host.isRunning };
  },

  // Lets the console go on: with the machine's terminal where it talks; the line that is typed is shown where that is asked for.
  go(engine, { talks, redraws }) {
    engine.isHeld = false;
    if (talks) engine.host.type('talk\r');
    else if (redraws) {
      engine.host.console.redrawn();
      engine.host.takeScreen();
    }
    engine.wake();
  },

  async lines(engine, { lines, isSilent }) { return engine.say(lines, isSilent); },

  // Keys of a person, and a line that the page types and doesn't wait for.
  keys(engine, { bytes }) { engine.pressed(bytes); },
  type(engine, { line }) { engine.behind(() => { engine.host.cutLine(); engine.host.type(`${line}\r`); }); },

  // Ends the run, as Ctrl-E does, also one whose line is only typed yet, and one that would go on behind lines.
  async halt(engine) {
    const { host, saying } = engine;
    if (saying) saying.goesOn = false;
    if (host.want === WANT.keys && host.queue.length === 0) return;
    host.keys([ESCAPE]);
    await engine.atRest();
  },

  put(engine, { name, bytes }) { engine.host.store(name, bytes); },

  // Answers `wants`: the file is put by now, or there is none.
  found(engine, { name }) {
    const { host } = engine;
    if (!engine.isWanting || host.console.name() !== name) return;
    engine.isWanting = false;
    if (host.files.has(name)) host.found(); else host.missed();
    engine.wake();
  },

  // What a console answers to a line, on a machine of its own with one file.
  async answer(engine, { line, bytes }) {
    const { exports } = await WebAssembly.instantiate(engine.compiled, {}), dialogue = new Dialogue(exports, { manner: GIVEN });
    dialogue.keys(bytesOf(line + '\n'));
    let said = '';
    for (let n = 0; n < MOST_STEPS && said === ''; n++) {
      const want = dialogue.step(1);
      if (want === WANT.fetch && bytes) dialogue.fetched(bytes);
      else if (want !== WANT.step) break;
      said = textOf(dialogue.screen());
    }
    return said;
  },

  // What the drives show, and which files are mounted on them.
  drives: (engine) => ({ device: engine.host.console.devices(), mounted: engine.host.mounted }),
  file: (engine, { name }) => engine.host.file(name),
  files: (engine) => [...engine.host.files].filter(([name]) => ![NO_FILE_NAME, AGAIN].includes(name)).map(([name, { size }]) => [name, size]),
  record: (engine) => engine.host.recordText(),
  regs: (engine) => engine.host.regs(),
  memory: (engine) => engine.host.console.x.memory.buffer.byteLength,

  // Whether the pages that were taken last of this machine are kept; where one was refused, no more are taken of it.
  kept(engine, { machine, isKept }) {
    if (machine !== engine.opened) return;
    engine.isKeeping = false;
    if (!isKept) engine.pages = null;
  },

  clock(engine, { hertz }) {
    engine.hertz = hertz;
    engine.at.tick = 0;
    engine.wake();
  },

  pace(engine, { turns }) {
    engine.pace = turns;
    engine.wake();
  },
};

// What can be asked of a machine that is lost: what was done, and another machine.
const OF_THE_LOST = ['open', 'record', 'files', 'clock', 'pace'];

const engine = new Engine((message, moved = []) => postMessage(message, moved));
onmessage = async ({ data: { id, call, args } }) => {
  try {
    if (engine.isLost && !OF_THE_LOST.includes(call)) throw new Error('the machine is lost');
    postMessage({ id, result: await CALLS[call](engine, args ?? {}) });
  } catch (error) {
    if (isTrap(error)) engine.lose(error);
    postMessage({ id, error: String(error.message ?? error) });
  }
};

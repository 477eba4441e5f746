// In the browser: holds the dialogues of the tests with the console of the module, as examples/c/dialogues.py does with the library for C.
// How a row reads is said in tests/rattle/p11_talks/src/dialogues.rt.txt. Left out: the dialogues in which memory or a store fails,
// which want an allocator and a store of Rattle.
'use strict';

const KEYS = {
  Up: '\x1b[A', Down: '\x1b[B', Right: '\x1b[C', Left: '\x1b[D', Home: '\x1b[H', End: '\x1b[F', Delete: '\x1b[3~', Backspace: '\x7f',
  Tab: '\t', Return: '\r', Esc: '\x1b', Brace: '{',
};
const MANNERS = { terminal: TYPED, batch: 2 }, FLAGS = { talk: 'talk', strict: 'strict', 'no-save': 'saveless' };
const SHOWN = { '?': ['screen', '\n'], '/': ['screen', ''], '!': ['errors', '\n'] }, NOTED = { ':': 'record', '~': 'past', $: 'requests' };
const OUTPUTS = ['screen', 'errors', 'record', 'past'], MOST_STEPS = 1000000, A_MODULE = 20;

const plain = (text) => text.replace(/\\([0-7]{3})/g, (_, digits) => String.fromCharCode(parseInt(digits, 8)));

// The bytes of a text with keys by name, control characters and repetitions in braces.
const spelled = (text) => plain(text.replace(/\{([^}]*)\}/g, (_, name) => {
  const [times, ...parts] = name.split('*');
  if (parts.length > 0) return plain(parts.join('*')).repeat(+times);
  return name.startsWith('Ctrl-') ? String.fromCharCode(name.charCodeAt(5) & 31) : KEYS[name];
}));

function newTalk(name) {
  const wanted = { screen: '', errors: '', record: '', past: '', requests: '' };
  return { name, events: [], ways: {}, flags: {}, earlier: [], manner: GIVEN, isEnded: false, isLeftOut: false, wanted };
}

function takeWay(talk, word, rest) {
  if (word in MANNERS) talk.manner = MANNERS[word];
  else if (word in FLAGS) talk.flags[FLAGS[word]] = true;
  else if (word === 'past') talk.earlier.push(spelled(rest));
  else if (word === 'heap' || word === 'refused') talk.isLeftOut = true;
  else if (word === 'ends') talk.isEnded = true;
  else talk.ways[word] = rest;
}

// The dialogues, each with the files that are there in it.
function talksOf(text) {
  const files = new Map(), all = [];
  let talk = null;
  const begin = (name) => { talk = newTalk(name); all.push(talk); };
  for (const line of text.split('\n')) {
    const kind = line[0], rest = line.slice(2), word = rest.split(' ', 1)[0], more = rest.slice(word.length + 1);
    const add = (name, bytes) => { files.set(name, (files.get(name) ?? '') + bytes); };
    if (kind === '=') begin(rest);
    else if (kind === '&') add(word, `${spelled(more)}\n`);
    else if (kind === '@') add(word, String.fromCharCode(...more.split(' ').slice(1).map((byte) => parseInt(byte, 16))).repeat(parseInt(more, 10)));
    else if (kind === '%') takeWay(talk, word, more);
    else if (kind === '<') talk.events.push({ after: null, keys: spelled(rest) });
    else if (kind === '+') talk.events.push({ after: +word, keys: spelled(more) });
    else if (kind === '^') talk.events.push({ after: null, event: rest });
    else if (kind in SHOWN) talk.wanted[SHOWN[kind][0]] += spelled(rest) + SHOWN[kind][1];
    else if (kind in NOTED) talk.wanted[NOTED[kind]] += `${rest}\n`;
    if (talk) talk.files = new Map(files);
  }
  return all.filter(({ isLeftOut }) => !isLeftOut);
}

// Who holds a dialogue, and the files of its host.
class Sitting {
  constructor(exports, talk) {
    const { manner, flags, ways, earlier } = talk;
    Object.assign(this, { talk, files: new Map(talk.files), written: new Set(), since: 0, events: [...talk.events] });
    this.came = { screen: '', errors: '', record: '', past: '', requests: '' };
    this.console = new Dialogue(exports, { manner, ...flags });
    this.console.resized(+(ways.columns ?? 80));
    for (const line of earlier) this.console.remember(bytesOf(line));
    if (ways.script) this.console.open(ways.script);
  }

  // What the dialogue came to.
  hold() {
    const { console: it, came, talk } = this;
    for (let n = 0; n < MOST_STEPS; n++) {
      while (this.events[0]?.after !== null && this.events[0]?.after <= this.since) this.give();
      this.since++;
      const want = it.step(+(talk.ways.slice ?? 1000000));
      for (const output of OUTPUTS) came[output] += textOf(it[output]());
      if (want === WANT.end) break;
      if (want === WANT.keys || want === WANT.idle) { if (this.events.length > 0) this.give(); else it.closed(); }
      else if (want !== WANT.step) this.answer(want);
    }
    Object.assign(came, { status: it.code(), machine: JSON.stringify([it.regs(), it.devices()]) });
    it.drop();
    return came;
  }

  give() {
    const { keys, event } = this.events.shift();
    this.since = 0;
    if (event === 'tick') this.console.ticked();
    else if (event === 'redraw') this.console.redrawn();
    else if (keys) this.console.keys(bytesOf(keys));
    else this.console.paused();
    if (this.talk.isEnded && this.events.length === 0) this.console.closed();
  }

  answer(want) {
    const { console: it, files } = this, note = (request) => { this.came.requests += `${request}\n`; };
    if (want === WANT.names) {
      const front = it.front();
      note(`names ${front}`);
      it.names([...files.keys()].filter((name) => name.startsWith(front)));
      return;
    }
    const name = it.name();
    if (want === WANT.fetch) {
      note(`fetch ${name}`);
      if (files.has(name)) it.fetched(bytesOf(files.get(name))); else it.missed(FILE.missing);
      return;
    }
    const isThere = !it.request().mayReplace && !this.written.has(name) && files.has(name);
    note(`put ${name}${isThere ? ', which is there' : ''}`);
    if (!isThere) {
      files.set(name, textOf(it.image()));
      this.written.add(name);
    }
    it.put(isThere ? FILE.there : FILE.written);
  }
}

// Registers and devices of a machine that has done the lines of a record.
function replayed(exports, record, files) {
  const machine = new P11(exports, 28, 1024);
  for (const [name, bytes] of files) if (record.includes(name)) machine.putFile(name, bytesOf(bytes));
  for (const line of record.split('\n').slice(0, -1)) machine.line(line);
  const told = JSON.stringify([machine.regs(), textOf(machine.line('device'))]);
  machine.drop();
  return told;
}

// The first output that isn't as it is written; nothing where all are.
function differs(exports, talk, came) {
  const wanted = { ...talk.wanted, status: +(talk.ways.status ?? 0), machine: replayed(exports, came.record, talk.files) };
  if (wanted.past === '') delete wanted.past;
  const output = Object.keys(wanted).find((it) => came[it] !== wanted[it]);
  return output && `${talk.name}: ${output}: ${JSON.stringify(came[output])}, and not ${JSON.stringify(wanted[output])}`;
}

// Holds all: how many there are, how many keys they have, and which come to something else. plant: what becomes of what a screen shows.
async function holdAll(plant = (text) => text) {
  const module = await WebAssembly.compile(await (await fetch('/p11.wasm')).arrayBuffer()), talks = talksOf(await (await fetch('/talks/dialogues.txt')).text());
  const wrong = [];
  let exports = null;
  for (const [number, talk] of talks.entries()) {
    if (number % A_MODULE === 0) ({ exports } = await WebAssembly.instantiate(module, {}));
    const came = new Sitting(exports, talk).hold();
    came.screen = plant(came.screen);
    const found = differs(exports, talk, came);
    if (found) wrong.push(found.slice(0, 2000));
  }
  return { count: talks.length, keys: talks.flatMap(({ events }) => events).reduce((sum, { keys }) => sum + (keys?.length ?? 0), 0), wrong: wrong.slice(0, 5) };
}

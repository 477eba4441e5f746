// In the browser: a session of random events beside the same one that is cut at random places, each time put together of its kept
// pages in a new instance of the module; typed bytes, registers, the record and all of the module's memory have to be the same.
'use strict';

const octal = (number) => number.toString(8).padStart(6, '0');
const BUSY = ['deposit 1000 5267 1000 5200 10021 20127 20000 103402 12701 4000 766', 'set 1 4000', 'start 1000'];
const KEYS = ['2 3 + . \r', ': Y 20000 0 DO I PAD ! LOOP ; Y\r', 'Y Y Y\r', 'WORDS\r', '5 BLOCK DROP UPDATE SAVE-BUFFERS\r', 'zork\r'];
const EVENTS = [
  [70, (random) => ({ turns: 1 + Math.floor(random() * (random() < 0.3 ? 500 : 100000)) })], [10, (random) => ({ keys: KEYS[Math.floor(random() * KEYS.length)] })],
  [8, () => ({ isTick: true })], [3, (random) => ({ line: `deposit ${octal(0o40000 + 2 * Math.floor(random() * 4096))} 123` })],
  [2, () => ({ line: 'save 0 saved' })], [2, (random) => ({ put: `pack${Math.floor(random() * 1e6)}`, drive: 1 + Math.floor(random() * 7) })],
  [2, (random) => ({ line: `unmount ${1 + Math.floor(random() * 7)}` })], [2, () => ({ line: 'flush' })], [1, () => ({ isHalted: true })],
];

function generator(seed) {
  let a = seed;
  return () => {
    a = (a + 0x6D2B79F5) | 0;
    let t = Math.imul(a ^ a >>> 15, 1 | a);
    t = t + Math.imul(t ^ t >>> 7, 61 | t) ^ t;
    return ((t ^ t >>> 14) >>> 0) / 4294967296;
  };
}

function anyEvent(random) {
  let left = random() * EVENTS.reduce((sum, [weight]) => sum + weight, 0);
  return EVENTS.find(([weight]) => (left -= weight) < 0)[1](random);
}

// Steps until something is waited for, of so many turns at most.
function steps(host, turns) {
  for (let left = turns; left > 0;) {
    const was = host.turns;
    if (host.step(left) !== WANT.step) return;
    left -= host.turns - was;
  }
}

// What is typed at the prompt, up to the next one: what is said. A talk is ended before, and a question answered by y.
function line(host, text) {
  let said = '';
  const { onscreen } = host;
  if (host.isRunning) host.keys([ESCAPE]);
  host.type(`${text}\r`);
  host.onscreen = (bytes, isTyped) => { if (!isTyped) said += textOf(bytes); onscreen(bytes, isTyped); };
  const rests = () => { while (host.want !== WANT.keys || host.queue.length > 0) host.step(1000000); };
  rests();
  if (isQuestion(said)) host.type('y');
  rests();
  host.onscreen = onscreen;
  return said.slice(said.lastIndexOf(`${text}\n`) + text.length + 1).replace(/p11> $/, '');
}

// Does an event.
function act(host, { turns, keys, line: text, put, drive, isHalted, isTick }) {
  if (turns) {
    if (!host.isRunning) host.type('talk\r');
    steps(host, turns);
  } else if (keys) { if (host.isRunning) host.type(keys); } else if (isTick) host.ticked();
  else if (isHalted) { if (host.isRunning) line(host, 'regs'); } else if (text) line(host, text);
  else {
    host.store(put, Uint8Array.from({ length: 60000 }, (_, at) => at * drive & 255));
    line(host, `mount ${drive} ${put} rw`);
  }
}

const isSameMemory = (one, other) => {
  const [a, b] = [one, other].map(({ console: { x } }) => new BigUint64Array(x.memory.buffer));
  return a.length === b.length && a.every((word, at) => word === b[at]);
};
const shownOf = (host) => JSON.stringify([host.regs(), host.console.devices(), host.recordText(), host.queue, host.waiting, host.mounted, [...host.files.keys()]]);

// What is planted: a page that is left as it was, a turn that is recorded already.
const PLANTS = {
  page: (kept) => { kept.rows.delete([...kept.rows.keys()].findLast((n) => n >= 0)); },
  lines: ({ head }) => { head.state.own.recorded += 1; },
};

// Plays so many events, and cuts the session once in so many; how many cuts there were, and what differed first.
async function cut({ seed, events, pack, script, isBusy, plant }) {
  const module = await WebAssembly.compile(await (await fetch('/p11.wasm')).arrayBuffer());
  const instance = () => new Pages(new WebAssembly.Instance(module, {}).exports), random = generator(seed);
  const bytes = new Uint8Array(await (await fetch(pack)).arrayBuffer()), lines = new Uint8Array(await (await fetch(script)).arrayBuffer());
  const typed = ['', ''], hear = (host, which) => { host.onscreen = (it, isTyped) => { if (isTyped) typed[which] += textOf(it); }; };
  const begun = (which) => {
    const pages = instance(), host = new Host(pages.x, { kwords: 28, script: 'script' });
    hear(host, which);
    host.store(pack.slice(1), bytes);
    host.store('script', lines);
    steps(host, 1e9);
    for (const it of isBusy ? BUSY : []) line(host, it);
    return { host, pages };
  };
  const whole = begun(0), cuts = begun(1), kept = { head: null, rows: new Map() };
  const keep = () => {
    const { head, isAll, rows } = cuts.pages.take(cuts.host);
    if (isAll) kept.rows.clear();
    for (const { n, bytes: it } of rows) kept.rows.set(n, it);
    kept.head = head;
  };
  let count = 0, isSame = true;
  for (let n = 0; n < events && isSame; n++) {
    const event = anyEvent(random);
    for (const { host } of [whole, cuts]) act(host, event);
    if (n % 40 === 0) keep();
    if (random() > 0.1) continue;
    keep();
    PLANTS[plant]?.(kept);
    const pages = instance(), rows = [...kept.rows].sort(([one], [two]) => one - two).map(([number, it]) => ({ n: number, bytes: it }));
    const host = pages.revive({ head: structuredClone(kept.head), rows }, [...cuts.host.record]);
    if (!host) return { count, isSame: false };
    hear(host, 1);
    Object.assign(cuts, { host, pages });
    count++;
    isSame = shownOf(whole.host) === shownOf(host) && isSameMemory(whole.host, host) && typed[0] === typed[1];
  }
  return { count, isSame, turns: whole.host.turns, typed: typed[0].length };
}

// From a save on, what was recorded since is done again: registers, devices, memory and the record have to be those of the session that
// went on. Where `plant` is asked for, the turns that were made by the save are made once more.
async function tails({ seed, count, plant = false }) {
  const module = await WebAssembly.compile(await (await fetch('/p11.wasm')).arrayBuffer()), random = generator(seed);
  const instance = () => new Pages(new WebAssembly.Instance(module, {}).exports), some = (most) => 1 + Math.floor(random() * most);
  let isSame = true;
  for (let n = 0; n < count && isSame; n++) {
    const pages = instance(), host = new Host(pages.x, { kwords: 28 }), halts = ['deposit 2000 5200 5200 0 774', 'start 2000'];
    for (const it of random() < 0.5 ? BUSY : halts) line(host, it);
    const others = [{ isTick: true }, { isTick: true }, { keys: 'x' }, { keys: 'xyz' }, { line: 'flush' }];
    const go = () => {
      for (let k = 0; k < 8; k++) act(host, random() < 0.7 ? { turns: some(5) } : others[some(others.length) - 1]);
      for (let k = 0; k < 9 && !host.isClean(); k++) host.step(1);
    };
    go();
    const { head, rows } = pages.take(host);
    go();
    line(host, '# the end');
    const other = instance().revive({ head: structuredClone(head), rows }, host.record), all = ['examine 0 512', 'examine 2000 512', 'examine 4000 512'];
    if (plant) other.recorded = other.turns;
    const tail = tailOf(plant ? { ...head.state, own: { ...head.state.own, recorded: other.turns } } : head.state, host.record, host.turns - host.recorded);
    if (tail.length > 0) {
      const lines = host.lines();
      other.again(tail);
      do other.step(1e6); while (other.want !== WANT.keys || other.queue.length > 0);
      other.isThere(lines);
    }
    const shown = (it) => JSON.stringify([it.recordText(), it.regs(), it.console.devices(), all.map((text) => line(it, text))]);
    isSame = shown(host) === shown(other);
  }
  return isSame;
}

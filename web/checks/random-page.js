// In the browser: random sessions of HALT and CONT, ticks, keys in bursts, drives and downloads, each with its record and with what the
// machine came to.
'use strict';

// It counts R0, halts at each 16th, and has interrupts of keyboard and clock, of which the first types the key back.
const PROGRAM = ['deposit 60 2000 200', 'deposit 100 2020 300', 'deposit 2000 113700 177562 110037 177566 2', 'deposit 2020 5201 2',
  'deposit 1000 12737 100 177560 12737 100 177546 5200 32700 17 1374 0 772', 'set 6 1000', 'start 1000'];
// One sector of drive 0 is written, from 1000 on.
const WRITE = (sector) => ['deposit 777410 1000', 'deposit 777406 177400', `deposit 777412 ${octal(sector)}`, 'deposit 777404 3'];
const whole = (random, most) => 1 + Math.floor(random() * most);
const ACTS = [
  [30, (random, host) => { for (let n = whole(random, 4); n > 0; n--) act(host, { turns: whole(random, 1000) }); }],
  [10, (random, host) => { if (host.isRunning) line(host, '# halted'); }],
  [10, (random, host) => host.ticked()],
  [10, (random, host) => {
    if (!host.isRunning) act(host, { turns: 10 });
    if (host.isRunning) host.keys(Array.from({ length: whole(random, 100) }, () => 32 + whole(random, 94)));
    if (random() < 0.8) steps(host, whole(random, 5000));
  }],
  [6, (random, host) => line(host, `mount ${whole(random, 8) - 1} pack${whole(random, 3)} ${random() < 0.8 ? 'rw' : 'ro'}`)],
  [4, (random, host) => line(host, `unmount ${whole(random, 8) - 1}`)],
  [4, (random, host) => { for (const it of WRITE(whole(random, 11))) line(host, it); }],
  [3, (random, host) => line(host, `save ${whole(random, 8) - 1} saved${whole(random, 2)}`)],
  [3, (random, host) => line(host, `clock ${whole(random, 2000)}`)], [3, (random, host) => line(host, 'start 1000')],
  [3, (random, host) => line(host, `deposit ${octal(0o3000 + 2 * whole(random, 500))} ${octal(whole(random, 65535))}`)],
  [4, (random, host) => line(host, `${random() < 0.5 ? 'step' : 'continue'} ${whole(random, 3000)}`)],
  [2, (random, host) => line(host, 'do script')],
];
// Lines of a file, in which runs halt.
const SCRIPT = 'start 1000\nstep 300\ntick\nstep 300\ncontinue 500\nkey AB\nexamine 1000 2\ncontinue 900\n';

// Sessions of these numbers: record, typed bytes, what the lines of a state show, and the sum of each saved pack.
async function sessions({ from, count, acts, states, isMerged }) {
  const module = await WebAssembly.compile(await (await fetch('/p11.wasm')).arrayBuffer()), told = [];
  const { note } = Host.prototype;
  Host.prototype.note = isMerged ? merged : note;   // planted: runs behind each other become one line
  for (let number = from; number < from + count; number++) {
    const random = generator(number), kwords = 4 * whole(random, 31), host = new Host(new WebAssembly.Instance(module, {}).exports, { kwords });
    let typed = '';
    host.onscreen = (bytes, isTyped) => { if (isTyped) typed += textOf(bytes); };
    for (let pack = 1; pack <= 3; pack++) host.store(`pack${pack}`, Uint8Array.from({ length: 40000 }, (_, at) => at * pack & 255));
    host.store('script', bytesOf(SCRIPT));
    for (const it of PROGRAM) line(host, it);
    for (let n = 0; n < acts; n++) {
      let left = random() * ACTS.reduce((sum, [weight]) => sum + weight, 0);
      ACTS.find(([weight]) => (left -= weight) < 0)[1](random, host);
    }
    line(host, '# the end');
    const saved = {}, record = host.recordText();
    for (const name of host.files.keys()) if (name.startsWith('saved')) saved[name] = await sumOfBytes(host.file(name));
    told.push({ number, kwords, record, typed, state: states.map((it) => line(host, it)).join(''), saved });
  }
  Host.prototype.note = note;
  return told;

  function merged(text) {
    const last = this.record.at(-1) ?? '';
    if (!text.startsWith('step ') || !last.startsWith('step ')) { note.call(this, text); return; }
    this.recorded += +text.slice(5);
    this.record[this.record.length - 1] = `step ${+last.slice(5) + +text.slice(5)}`;
  }
}

async function sumOfBytes(bytes) {
  return Array.from(new Uint8Array(await crypto.subtle.digest('SHA-256', bytes)), (byte) => byte.toString(16).padStart(2, '0')).join('');
}

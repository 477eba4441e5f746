// The front of an 11/40: switches, lamps and the six keys. What a key does are lines typed at the console, so all of it is in
// the record. The lamps are the machine's own registers: PC and R0 while it runs and when it has stopped, and behind
// LOAD ADRS, EXAM and DEP what those showed.
//   const panel = new Panel(element); panel.link = link; panel.desk = desk; panel.light(lamps);
'use strict';

const REGISTERS = 0o777700, LAST_REGISTER = 0o777717, USER_STACK = 0o777716;
const FLAGS = ['RUN', 'PROC', 'BUS', 'CONSOLE', 'USER', 'VIRTUAL'];

class Panel {
  constructor(element) {
    Object.assign(this, { element, switches: 0, address: 0, data: 0, last: '', isEnabled: true, isSetting: 0, lamps: null, spokenAt: 0 });
    this.rows = { address: this.lampRow('address', 18), data: this.lampRow('data', 16) };
    this.flags = FLAGS.map((name) => this.flag(name));
    this.switchRow();
    for (const key of element.querySelectorAll('[data-key]')) key.onclick = () => this.press(key.dataset.key);
  }

  // -- what it looks like
  lampRow(name, count) {
    const row = this.element.querySelector(`#${name}`);
    const lamps = Array.from({ length: count }, () => lampOf(''));
    row.append(...lamps.toReversed());
    if (count === 16) row.prepend(gap(), gap());
    return { row, lamps };
  }

  flag(name) {
    const lamp = lampOf(''), box = document.createElement('span');
    box.append(lamp, name);
    box.className = 'flag';
    box.setAttribute('role', 'img');
    this.element.querySelector('#flags').append(box);
    return { name, lamp, box };
  }

  switchRow() {
    this.levers = Array.from({ length: 18 }, (_, bit) => {
      const lever = document.createElement('button');
      lever.className = 'lever';
      lever.setAttribute('role', 'switch');
      lever.setAttribute('aria-label', `Switch ${bit}`);
      lever.textContent = bit;
      lever.onclick = () => this.set(this.switches ^ 1 << bit);
      lever.onkeydown = (event) => this.leverKey(event, bit);
      return lever;
    });
    this.element.querySelector('#switches').append(...this.levers.toReversed());
    this.focusLever(17, false);
    this.show();
  }

  // One lever is reached by Tab, the others by the arrows; an octal digit moves all levers three places up and sets them.
  leverKey(event, bit) {
    const step = { ArrowLeft: 1, ArrowRight: -1 }[event.key];
    if (step) this.focusLever((bit + step + 18) % 18, true);
    else if (/^[0-7]$/.test(event.key)) this.set((this.switches << 3 | +event.key) & 0o777777);
    else return;
    event.preventDefault();
  }

  focusLever(bit, isFocused) {
    this.levers.forEach((lever, n) => { lever.tabIndex = n === bit ? 0 : -1; });
    if (isFocused) this.levers[bit].focus();
  }

  show() {
    this.levers.forEach((lever, bit) => lever.setAttribute('aria-checked', String((this.switches >> bit & 1) === 1)));
    this.element.querySelector('#switches').setAttribute('aria-label', `Switches ${octalOf(this.switches)}`);
  }

  // -- what the keys do
  async set(switches) {
    const isChanged = ((switches ^ this.switches) & 0o177777) !== 0;
    this.switches = switches;
    this.show();
    if (!isChanged) return;
    this.isSetting++;
    await this.desk.command(`switches ${octalOf(switches & 0o177777)}`, true);
    this.isSetting--;
  }

  // A new machine has all levers down, and isn't halted.
  renew() {
    Object.assign(this, { switches: 0, address: 0, data: 0, last: '' });
    this.show();
    this.enable(true);
  }

  // The levers are as the last line of the record that sets them, but for lines of their own that are on their way.
  follow(lines) {
    const line = lines.findLast((it) => it.startsWith('switches '));
    if (!line || this.isSetting > 0) return;
    this.switches = (this.switches & 0o600000) | parseInt(line.slice(9), 8);
    this.show();
  }

  async press(key) {
    if (key === 'halt') return this.toggle();
    if (this.lamps?.isRunning) return undefined;      // while it runs these keys do nothing, as on DEC's
    const was = this.last;
    this.last = key;
    switch (key) {
      case 'load': this.address = this.switches; this.data = 0; break;
      case 'exam': this.address = this.next(was === 'exam'); await this.exam(); break;
      case 'dep': this.address = this.next(was === 'dep'); await this.dep(); break;
      case 'start': await this.start(); break;
      case 'cont': await (this.isEnabled ? this.desk.talk() : this.desk.command('step 1')); break;
      default:
    }
    return this.light(this.lamps);
  }

  // EXAM and DEP that follow each other go on: by a word on the bus, by one among the registers.
  next(isRepeated) {
    if (!isRepeated) return this.address;
    return (this.address + (isRegister(this.address) ? 1 : 2)) & 0o777777;
  }

  async exam() {
    if (isRegister(this.address)) {
      const value = registerOf(await this.link.ask('regs'), this.address);
      if (value === undefined) { await this.desk.command(`examine ${octalOf(this.address)}`); return; }
      this.data = value;
      return;
    }
    const { answer } = await this.desk.command(`examine ${octalOf(this.address)}`);
    const found = /^EXAM \d+ (\d+)/.exec(answer);
    if (found) this.data = parseInt(found[1], 8);
  }

  async dep() {
    const word = this.switches & 0o177777, number = numberOf(this.address);
    const line = number === undefined ? `deposit ${octalOf(this.address)}` : `set ${number.toString(8)}`;
    const { answer } = await this.desk.command(`${line} ${octalOf(word)}`);
    if (answer === 'OK\n') this.data = word;
  }

  async start() {
    const { answer } = await this.desk.command(`start ${octalOf(this.address & 0o177777)}`);
    if (answer === 'OK\n' && this.isEnabled) await this.desk.talk();
  }

  enable(isEnabled) {
    this.isEnabled = isEnabled;
    const key = this.element.querySelector('[data-key=halt]');
    key.setAttribute('aria-checked', String(!isEnabled));
    key.querySelector('b').textContent = isEnabled ? 'ENABLE' : 'HALT';
  }

  async toggle() {
    this.enable(!this.isEnabled);
    if (!this.isEnabled) await this.desk.halt();
  }

  // -- the lamps: a lamp that was lit half the time glows at half
  light(lamps) {
    if (!lamps) return;
    this.lamps = lamps;
    const { count, isRunning, regs } = lamps;
    const isOwn = !isRunning && ['load', 'exam', 'dep'].includes(this.last);
    const bits = (number) => (bit) => number >> bit & 1;
    const address = isOwn ? bits(this.address) : (bit) => lamps.address[bit] / count;
    const data = isOwn ? bits(this.data) : (bit) => lamps.data[bit] / count;
    this.rows.address.lamps.forEach((lamp, bit) => glow(lamp, address(bit)));
    this.rows.data.lamps.forEach((lamp, bit) => glow(lamp, data(bit)));
    const busy = isRunning ? lamps.busy / count : 0;
    [Number(isRunning), busy, busy, Number(!isRunning), lamps.user / count, lamps.virtual / count].forEach((part, n) => {
      glow(this.flags[n].lamp, part);
      label(this.flags[n].box, `${this.flags[n].name} lamp, ${part > 0 ? 'on' : 'off'}`);
    });
    if (isRunning && Date.now() - this.spokenAt < 1000) return;
    this.spokenAt = Date.now();
    label(this.rows.address.row, `Address lamps ${octalOf(isOwn ? this.address : regs.pc)}`);
    label(this.rows.data.row, `Data lamps ${octalOf(isOwn ? this.data : regs.general[0])}`);
  }
}

const octalOf = (number) => number.toString(8).padStart(6, '0');
const isRegister = (address) => address >= REGISTERS && address <= LAST_REGISTER;

// What the console of an 11/40 has at 777700 and up: R0 to R5, the kernel's stack pointer, PC, and at 777716 the user's.
function registerOf(regs, address) {
  const number = address - REGISTERS;
  if (number < 6) return regs.general[number];
  return { 0o777706: regs.ksp, 0o777707: regs.pc, 0o777716: regs.usp }[address];
}

// The number by which the line `set` knows it.
function numberOf(address) {
  if (!isRegister(address)) return undefined;
  if (address <= 0o777707) return address - REGISTERS;
  return address === USER_STACK ? 8 : undefined;
}

function lampOf(text) {
  const lamp = document.createElement('i');
  lamp.className = 'lamp';
  lamp.textContent = text;
  return lamp;
}

function gap() {
  const it = document.createElement('i');
  it.className = 'gap';
  return it;
}

const glow = (lamp, part) => lamp.style.setProperty('--glow', part.toFixed(2));
const label = (element, text) => { if (element.getAttribute('aria-label') !== text) element.setAttribute('aria-label', text); };

// The eight drives and the files of the session: what is on each drive, mounting and write-protecting, which sectors
// have changed, and the pack as a download.
//   const drives = new Drives(element, { pick, say }); drives.link = link; drives.desk = desk; drives.show();
'use strict';

class Drives {
  constructor(element, calls) {
    Object.assign(this, { element, ...calls });
    this.rows = Array.from({ length: 8 }, (_, drive) => this.row(drive));
    element.querySelector('#packs').append(...this.rows.map((row) => row.box));
  }

  row(drive) {
    const box = document.createElement('li');
    box.dataset.drive = drive;
    box.innerHTML = `<b>${drive}</b><span class="pack"></span><span class="buttons">
      <button class="mount">Mount…</button><button class="boot">Boot</button><button class="protect" role="switch">Protect</button>
      <button class="changed"></button><button class="take">Download</button><button class="off">Unmount</button></span>
      <p class="sectors" hidden></p>`;
    const find = (name) => box.querySelector('.' + name);
    for (const [name, label, act] of [
      ['mount', 'Mount a pack on drive', () => this.pick(drive)],
      ['boot', 'Boot from drive', () => this.boot(drive)],
      ['protect', 'Write-protect drive', () => this.protect(drive)],
      ['changed', 'Changed sectors of drive', () => this.sectors(drive)],
      ['take', 'Download the pack on drive', () => this.take(drive)],
      ['off', 'Unmount drive', () => this.does([`unmount ${drive}`])],
    ]) {
      find(name).setAttribute('aria-label', `${label} ${drive}`);
      find(name).onclick = act;
    }
    return { box, find, name: '', shown: '' };
  }

  // Asks the machine and shows it.
  async show() {
    const { device, mounted } = await this.link.ask('drives');
    this.state = [...device.matchAll(/^DRIVE (\d) (.*)$/gm)].map(([, drive, text]) => {
      const found = /^(rw|ro) cylinder (\d+) changed (\d+) due (\S+)$/.exec(text);
      return found && { name: mounted[+drive], access: found[1], cylinder: +found[2], changed: +found[3], isBusy: found[4] !== '-' };
    });
    this.state.forEach((state, drive) => this.showRow(drive, state));
    await this.showFiles();
  }

  showRow(drive, state) {
    const row = this.rows[drive], mark = JSON.stringify(state);
    if (row.shown === mark) return;
    row.shown = mark;
    row.box.classList.toggle('empty', !state);
    row.find('pack').textContent = state ? `${state.name}, cylinder ${state.cylinder}` : 'empty';
    row.find('mount').hidden = Boolean(state);
    for (const name of ['boot', 'protect', 'changed', 'take', 'off']) row.find(name).hidden = !state;
    row.find('protect').setAttribute('aria-checked', String(state?.access === 'ro'));
    row.find('changed').textContent = `${state?.changed ?? 0} changed`;
    if (!state?.changed) row.find('sectors').hidden = true;
  }

  firstEmpty() { return Math.max(0, this.state.findIndex((state) => !state)); }

  // Which sectors were written since the pack was mounted, in the order of their numbers, neighbours together.
  async sectors(drive) {
    const box = this.rows[drive].find('sectors');
    box.hidden = !box.hidden;
    if (box.hidden) return;
    const [, , ...numbers] = (await this.desk.command(`changed ${drive}`, true)).answer.trim().split(' ');
    box.textContent = `Sectors written since it was mounted: ${rangesOf(numbers.map(Number)) || 'none'}`;
  }

  // The usual loader, toggled in at 1000: it reads the first 256 words of the drive's pack to 0, and goes there.
  async boot(drive) {
    await this.desk.halt();
    const address = (drive << 13).toString(8).padStart(6, '0');
    const isDone = await this.does([`deposit 1000 12737 ${address} 177412 12700 177406 12710 177400 12740 5 105710 100376 5007`, 'start 1000']);
    if (isDone) await this.desk.talk();
  }

  // The pack as it is now: `save` writes it to a file of the session, and that is given to the user.
  async take(drive) {
    const file = `drive${drive}.rk05`;
    if (await this.does([`save ${drive} ${file}`])) download(file, await this.link.ask('file', { name: file }));
  }

  // A pack is protected when it is mounted; so one that turns is saved, taken off and mounted again.
  async protect(drive) {
    const { access } = this.state[drive], file = `drive${drive}.rk05`;
    await this.does([`save ${drive} ${file}`, `unmount ${drive}`, `mount ${drive} ${file} ${access === 'ro' ? 'rw' : 'ro'}`]);
  }

  // Types lines: whether each was done. Why one wasn't is said.
  async does(lines) {
    const { answer, reason } = await this.desk.commands(lines);
    if (reason) this.say(reason);
    await this.show();
    return answer === 'OK\n';
  }

  async showFiles() {
    const files = await this.link.ask('files'), mark = JSON.stringify(files);
    if (this.files === mark) return;
    this.files = mark;
    this.element.querySelector('#files').replaceChildren(...files.map(([name, size]) => {
      const item = document.createElement('li'), button = document.createElement('button');
      button.textContent = 'Download';
      button.setAttribute('aria-label', `Download the file ${name}`);
      button.onclick = async () => download(name.replace(/.*\//, ''), await this.link.ask('file', { name }));
      item.append(`${name}, ${size.toLocaleString('en')} bytes `, button);
      return item;
    }));
  }
}

function rangesOf(numbers) {
  const ranges = [];
  for (const number of numbers.toSorted((a, b) => a - b)) {
    const last = ranges.at(-1);
    if (last && last[1] === number - 1) last[1] = number; else ranges.push([number, number]);
  }
  return ranges.map(([from, to]) => (from === to ? `${from}` : `${from} to ${to}`)).join(', ');
}

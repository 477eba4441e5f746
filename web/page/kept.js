// The sessions that the browser keeps: a list with name, time, turns and size of each, to open, rename, export and forget it.
//   const list = new KeptList(element, app); await list.show();
'use strict';

class KeptList {
  constructor(element, app) {
    Object.assign(this, { element, app, shown: 0 });
    element.addEventListener('toggle', () => this.show());
  }

  async show() {
    if (!this.element.open) return;
    const number = ++this.shown, { store } = this.app, sessions = await store.list(), open = await Claim.all();
    if (number !== this.shown) return;
    const rows = sessions.map((session) => this.row(session, open.has(Claim.name(session.id))));
    this.element.querySelector('ul').replaceChildren(...rows);
  }

  row(session, isOpen) {
    const item = document.createElement('li'), name = nameOf(session), isHere = session.id === this.app.store.session?.id;
    item.dataset.session = session.id;
    const told = document.createElement('span');
    told.textContent = `${name}: ${timeOf(session.used)}, ${session.turns.toLocaleString('en')} turns, ${sizeOf(session.bytes)}`
      + (isHere ? ', here' : isOpen ? ', in another tab' : '') + ' ';
    item.append(told, ...[
      ['Open', () => this.open(session, isOpen), isHere], ['Rename', () => this.rename(item, session)], ['Export', () => this.exports(session)],
      ['Forget', () => this.forget(session), isOpen || isHere],
    ].filter(([, , isLeftOut]) => !isLeftOut).flatMap(([label, act]) => [buttonOf(label, `${label} ${name}`, act), ' ']));
    return item;
  }

  async open(session, isOpen) {
    const { app } = this, isTaken = isOpen && await app.ask(`${nameOf(session)} is open in another tab.`, 'Take it over');
    if (isOpen && !isTaken) return;
    if (!await app.sessions.reopen(session.id, isTaken)) app.note(`${nameOf(session)} can't be opened: another tab has it, or it is forgotten.`);
    await this.show();
  }

  // The name becomes a field, until Return.
  rename(item, session) {
    const field = document.createElement('input');
    field.value = session.name ?? '';
    field.setAttribute('aria-label', `New name of ${nameOf(session)}`);
    const done = async () => {
      await this.app.store.rename(session.id, field.value.trim().slice(0, 80));
      await this.show();
    };
    item.replaceChildren(field, ' ', buttonOf('Rename', `Rename ${nameOf(session)}`, done));
    field.onkeydown = (event) => { if (event.key === 'Enter') done(); };
    field.focus();
  }

  // The record, and the files that were put into the session and don't ship with the page.
  async exports(session) {
    const { app } = this, kept = await app.store.kept(session.id);
    if (!kept) return;
    const own = await app.store.files(session.id, app.ships());
    downloadRecord(`session-${session.id}.p11`, recordOf(kept));
    for (const { name, bytes } of own) download(name, bytes);
    app.note(`session-${session.id}.p11 is the record${own.length > 0 ? `; it wants beside it ${own.map(({ name }) => name).join(', ')}` : ''}.`);
  }

  async forget(session) {
    if (!await this.app.ask(`${nameOf(session)}: its record and its files go for good.`, 'Forget it')) return;
    await this.app.store.forget(session.id);
    await this.show();
  }

  // All but those that some tab has.
  async forgetAll() {
    const { store } = this.app, open = await Claim.all();
    const others = (await store.list()).filter(({ id }) => !open.has(Claim.name(id)) && id !== store.session?.id);
    if (!await this.app.ask(`${others.length} sessions: their records and files go for good.`, 'Forget them')) return;
    for (const { id } of others) await store.forget(id);
    await this.show();
    this.app.note('All other sessions are forgotten.');
  }
}

const nameOf = ({ id, name, title }) => name || (title ? `${title} (${id})` : `Session ${id}`);
const TIME = { day: 'numeric', month: 'short', hour: '2-digit', minute: '2-digit', hour12: false };
const timeOf = (used) => (used ? new Date(used).toLocaleString('en', TIME) : 'earlier');
const sizeOf = (bytes = 0) => (bytes < 1e5 ? `${Math.ceil(bytes / 1e3)} KB` : `${(bytes / 1e6).toFixed(1)} MB`);

function buttonOf(label, name, act) {
  const button = document.createElement('button');
  button.textContent = label;
  button.setAttribute('aria-label', name);
  button.onclick = act;
  return button;
}

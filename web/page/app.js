// The page: makes its parts, joins them, and opens the machine.
'use strict';

const $ = (selector) => document.querySelector(selector);
const ENGINE = ['calls', 'host', 'pages', 'worker'].map((name) => `engine/${name}.js`);

// The page as it came, where it is one file; it is copied with a program in it.
const PAGE = globalThis.P11_INSIDE ? `<!doctype html>\n${document.documentElement.outerHTML}\n` : null;

class App {
  constructor() {
    this.screen = new Screen();
    this.view = new View(this.screen, $('#screen'));
    this.memory = $('#memory');
    this.memory.append(...Array.from({ length: 31 }, (_, n) => new Option(`${4 * n + 4} thousand words`, 4 * n + 4)));
    this.memory.value = '28';
    this.isShowing = 0;
    this.past = [];      // lines that were typed, for the history of a further machine
    this.isOpening = true;   // whether what is done is the page's own doing
    this.writing = null;     // while lines are written
    this.showing = null;     // while what is said waits for that
  }

  // What the page or the console says, which has the codes of a VT100.
  say(text) {
    const { isVt52 } = this.screen;
    this.screen.isVt52 = false;
    this.screen.write(Uint8Array.from(text.replace(/\n/g, '\r\n'), (c) => c.charCodeAt(0)));
    this.screen.isVt52 = isVt52;
    this.view.speak(text);
  }

  // Nothing is done with a machine that isn't ready: keys wait, and panel and drives take nothing.
  hold(isHeld) {
    this.desk.hold(isHeld);
    for (const part of ['#panel', '#drives']) $(part).inert = isHeld;
  }

  note(text) { $('#note').textContent = text; }

  // Something to choose from, until it is closed, or another offer takes its place.
  offer(text, choices, otherwise = () => {}, no = 'Close') {
    this.offered?.close();
    const box = $('#offer'), offered = { close: () => { if (close()) otherwise(); } };
    const close = () => {
      if (this.offered !== offered) return false;
      this.offered = null;
      box.hidden = true;
      return true;
    };
    this.offered = offered;
    box.replaceChildren(text, ...[...choices, [no, otherwise]].map(([label, act]) => {
      const button = document.createElement('button');
      button.textContent = label;
      button.onclick = () => { close(); act(); };
      return button;
    }).flatMap((button) => [' ', button]));
    box.hidden = false;
    return offered;
  }

  // A question: whether the answer was this one.
  ask(text, yes) { return new Promise((done) => { this.offer(text, [[yes, () => done(true)]], () => done(false), 'No'); }); }

  // The names of the files that ship with the page.
  ships() { return this.boots.flatMap((it) => [it.script, ...it.files]); }

  // A page in a frame takes no focus from the page around it.
  focus() { if (parent === globalThis || document.hasFocus()) $('#keys').focus({ preventScroll: true }); }

  async open() {
    this.controls();
    this.paint();
    const [module, boots, store, ...sources] = await Promise.all([
      Shelf.bytes('p11.wasm'), Shelf.text('boots.json'), Store.open(), ...ENGINE.map((name) => Shelf.text(name))]);
    Object.assign(this, { module, boots: JSON.parse(boots), store, sources });
    store.onrefused = (why) => {
      $('#refused').hidden = why === '';
      $('#refused').textContent = `The browser keeps nothing more of this session (${why}); its record can be downloaded.`;
    };
    store.onrefused(store.refused);
    store.late?.then(() => { if (!store.isTouched) this.begin(); });
    if (store.loss !== null) this.note(`The browser has lost the sessions that were kept: ${store.loss || 'it says no more'}.`);
    store.onlost = () => this.sessions.leave('(The session goes on in another tab; here is a new machine.)');
    this.kept = new KeptList($('#kept'), this);
    this.connect();
    listen(this);
    this.showBoots();
    await this.begin();
    this.isOpening = false;
    this.focus();
    onhashchange = () => this.sessions.fromLink();
    this.sessions.fromLink();
    document.documentElement.dataset.ready = 'yes';
  }

  // A new engine, and the parts that speak to it.
  connect() {
    this.link?.worker.terminate();
    this.link = new Link(this.sources);
    const { link } = this, onact = (isPersons) => { if (isPersons || !this.isOpening) this.store.touch(); };
    const desk = new Desk({ link, onact, onerror: (error) => this.note(error.message) });
    this.desk = desk;
    this.sessions ??= new Sessions(this);
    const say = (text) => this.note(text), pick = (drive) => this.pick(drive);
    this.panel ??= new Panel($('#panel'));
    this.drives ??= new Drives($('#drives'), { say, pick });
    Object.assign(this.panel, { link, desk });
    Object.assign(this.drives, { link, desk });
    link.on('typed', ({ bytes }) => this.shows(() => this.typed(bytes)));
    link.on('said', ({ text, isOfTalk }) => this.shows(() => this.say(text), isOfTalk ? null : this.writing));
    link.on('runs', (run) => this.runs(run));
    link.on('rests', () => this.drives.show());
    link.on('wants', ({ name }) => this.sessions.find(name));
    link.on('asks', ({ text }) => { this.note(text); if (text) this.focus(); });
    link.on('past', ({ line }) => this.past.push(line));
    link.on('over', () => this.sessions.leave('(The session is over, and kept; here is a new machine.)'));
    link.on('lamps', (lamps) => this.lamps(lamps));
    link.on('journal', (gained) => this.keep(gained));
    link.on('lost', ({ why }) => this.sessions.lost(why));
  }

  // What the address asks for, what was kept, or a new machine.
  async begin() {
    const asked = new URLSearchParams(location.search);
    const [boot, pack, script] = ['boot', 'pack', 'script'].map((name) => asked.get(name));
    const sessions = await this.store.list(), lesson = lessonIn(), last = lesson ?? boot ?? pack ?? script ? undefined : sessions.find(({ turns, count }) => turns > 0 || count !== 0);
    this.store.beginLog();
    if (last && await this.sessions.reopen(last.id)) return;
    if (sessions.length > 0) this.sessions.kwords = sessions[0].kwords;
    if (lesson) { await this.sessions.openPacked(document.title, lesson, `lesson ${crcOf(lesson)}`); return; }
    this.say('p11: a PDP-11/40. Type help, drop a file,\nor boot something by a button above.\n');
    await this.sessions.fresh();
    if (boot) await this.sessions.boot(boot);
    if (pack) await this.sessions.beside('pack', pack);
    if (script) await this.sessions.beside('script', script);
    if (last) {
      this.offer('The last session is open in another tab; this tab has a machine of its own.', [
        ['Take it over', () => this.sessions.reopen(last.id, true)],
      ]);
    }
  }

  // Keeps what was done, and beside the machine's memory what the screen shows.
  async keep(gained) {
    const { link } = this, { pages } = gained;
    this.panel.follow(gained.lines);
    if (pages) pages.head.screen = this.screen.picture();
    const written = this.store.add(gained);
    if (gained.lines.length > 0) this.writes(written);
    const isKept = await written === true;
    if (pages) link.ask('kept', { machine: pages.head.machine, isKept });
  }

  // While lines are written what is said of them waits, but for a browser that doesn't answer.
  writes(written) {
    const here = Promise.race([written, pause(PATIENCE_MS)]).then(() => { if (this.writing === here) this.writing = null; });
    this.writing = here;
  }

  // What is shown comes in turn, and behind what it waits for.
  shows(act, written = null) {
    if (!this.showing && !written) { act(); return; }
    const here = Promise.all([this.showing, written]).then(act).finally(() => { if (this.showing === here) this.showing = null; });
    this.showing = here;
  }

  typed(bytes) {
    this.screen.write(bytes);
    this.view.speak(String.fromCharCode(...bytes.slice(-400).map((byte) => byte & 0o177)));
    const replies = this.screen.takeReplies();
    if (replies.length > 0) this.desk.reply(replies);
  }

  runs({ isRunning, isTalk }) {
    Object.assign(this.desk, { isRunning, isTalk });
    if (isTalk) this.panel.enable(true);   // a machine that runs isn't halted
    this.store?.note({ isTalking: isTalk });
    clearInterval(this.isShowing);
    if (isRunning) this.isShowing = setInterval(() => this.drives.show(), 1000);
  }

  lamps(lamps) {
    this.panel.light(lamps);
    this.sessions.progress(lamps.regs.turns);
    const million = lamps.rate / 1e6, rate = lamps.isIdle ? 'waits' : `${million.toFixed(million < 1 ? 2 : 1)} million turns a second`;
    $('#speed').textContent = lamps.isRunning ? rate + (lamps.keys > 0 ? `, ${lamps.keys} keys wait` : '') : '';
  }

  // Faults of the page, if there were any, can be given to whoever mends it.
  showFaults() {
    const box = $('#faults'), report = async () => Faults.report(await this.link.ask('record').catch(() => ''));
    const act = async () => download('report.txt', new TextEncoder().encode(await report()));
    box.replaceChildren(`Faults of the page itself: ${Faults.list.length}. `, buttonOf('Download a report', 'Download a report of the faults', act));
    box.hidden = false;
  }

  showBoots() {
    $('#boots').replaceChildren(...this.boots.map(({ name, title, about, first }, at) => {
      const button = document.createElement('button');
      Object.assign(button, { textContent: at === 0 ? `Start here: ${title}` : title, title: `${about} Type first: ${first}` });
      button.dataset.boot = name;
      button.onclick = () => this.sessions.boot(name);
      return button;
    }).flatMap((button) => [button, ' ']));
  }

  setClock(hertz) {
    $('#hertz').value = String(hertz);
    this.link.ask('clock', { hertz });
    this.store.note({ hertz });
  }

  setPace(turns) {
    $('#pace').value = String(turns);
    this.link.ask('pace', { turns });
    this.store.note({ pace: turns });
  }

  controls() {
    $('#fresh').onclick = () => this.sessions.fresh(+this.memory.value);
    $('#hertz').onchange = ({ target }) => this.setClock(+target.value);
    $('#pace').onchange = ({ target }) => this.setPace(+target.value);
    $('#kind').onchange = ({ target }) => { this.screen.isVt52 = target.value === '52'; };
    $('#load').onclick = () => this.pick();
    $('#record').onclick = async () => downloadRecord('session.p11', await this.link.ask('record'));
    $('#packed').onclick = async () => download('session.p11z', await this.sessions.packed());
    $('#page').onclick = async () => download('lesson.html', new TextEncoder().encode(pageWith(PAGE, await this.sessions.packed())));
    $('#page').hidden = PAGE === null;
    $('#forget').onclick = () => this.kept.forgetAll();
    $('#transcript').onclick = () => download('transcript.txt', new TextEncoder().encode(`${this.view.text().trimEnd()}\n`));
    $('#link').onclick = () => this.sessions.toLink();
    sights(this);
    Faults.show = () => this.showFaults();
    $('#proved').textContent = globalThis.P11_PROVED;
    if (lessonIn()) $('#checked').after(' The program that it opens with was put in later.');
  }

  paint() {
    requestAnimationFrame(() => this.paint());
    this.view.paint();
    if (this.screen.bells === 0) return;
    this.screen.bells = 0;
    $('#screen').classList.add('bell');
    setTimeout(() => $('#screen').classList.remove('bell'), 150);
  }
}

globalThis.app = new App();
if (hasMemory64) app.open().catch((error) => app.note(`The page can't open: ${error.message}.`));

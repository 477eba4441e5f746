// Machines and their sessions: a new one, one of those that ship with the page, and one that was kept, which goes on from the
// kept pages of its memory, or, with another module, by playing its record again.
//   const sessions = new Sessions(app); await sessions.fresh(28); await sessions.boot('monitor'); await sessions.reopen(7);
//   await sessions.openPacked('mine.p11z', bytes); await sessions.packed()
'use strict';

const MOST_PAST = 200;

class Sessions {
  constructor(app) {
    this.app = app;
    this.kwords = 28;
    this.machine = 0;    // how many were asked for; what one is told to do ends where another one is asked for
  }

  // A new machine, in the place of the one that is there.
  async fresh(kwords = this.kwords) {
    if (!await this.open(kwords)) return;
    this.begin({ kwords });
    await this.go();
    this.app.openedIn ??= performance.now();
  }

  // Opens a machine, with a script that comes first, or of what is kept of a session, and leaves it held. Gives what tells whether it is
  // still the one that was asked for last, with what the engine says of it; or null where it is none already.
  async open(kwords, { script, kept } = {}) {
    const { app } = this, number = ++this.machine, isLast = () => number === this.machine;
    this.kwords = kwords;
    app.memory.value = String(kwords);
    app.hold(true);
    const opened = await app.link.ask('open', { module: app.module.slice(), kwords, past: app.past.slice(-MOST_PAST), ships: app.ships(), script, kept });
    if (!isLast()) return null;
    app.panel.renew();
    if (kept) app.panel.follow(kept.lines);
    if (app.screen.x > 0) app.say('\n');
    return Object.assign(isLast, opened);
  }

  // The machine that is open goes on.
  async go(how = {}) {
    await this.app.link.ask('go', how);
    this.app.hold(false);
    await this.app.drives.show();
  }

  // One of those in boots.json.
  async boot(name) {
    const { app } = this, entry = app.boots.find((it) => it.name === name);
    if (!entry) {
      app.note(`Nothing of the name "${name}" ships with the page; there are ${app.boots.map((it) => it.name).join(', ')}.`);
      return;
    }
    const load = async () => {
      const script = await Shelf.text(entry.script), contents = await Promise.all(entry.files.map((file) => Shelf.bytes(file)));
      // the terminal makes the turns of a last line `continue`
      return { talks: entry.talk, script: entry.talk ? script.replace(/\ncontinue \d+\n$/, '\n') : script, files: entry.files.map((file, at) => ({ name: file, bytes: contents[at] })) };
    };
    app.view.follow();
    if (!await this.start({ kwords: 28, title: entry.title, shown: entry.script, origin: `boot ${name}`, load })) return;
    app.note(`${entry.about} Type first: ${entry.first}`);
    app.focus();
  }

  // A session that is packed in one file.
  async openPacked(name, bytes, origin) {
    const { app } = this;
    try {
      const packed = await unpacked(bytes);
      await this.start({ kwords: packed.kwords, title: name, shown: nameFor(name, () => false), origin, load: () => packed });
    } catch (error) {
      app.note(`${name} is no session: ${error.message}.`);
    }
  }

  // A session of its own, on a new machine: files, and a script that comes first. Whether no other one was asked for meanwhile. Where it comes
  // of an origin, the last session of that is offered.
  async start({ kwords, title, shown, origin, load }) {
    const { app } = this, isLast = await this.open(kwords, { script: shown });
    if (!isLast) return false;
    this.begin({ kwords, title, origin });
    const { script, files, talks } = await load();
    for (const { name, bytes } of files) if (isLast()) await this.put(name, bytes);
    if (!isLast()) return false;
    await app.link.ask('put', { name: shown, bytes: Uint8Array.from(script, (c) => c.charCodeAt(0)) });
    if (isLast()) await this.go({ talks });
    if (isLast() && origin) await this.offerLast(origin);
    return isLast();
  }

  // What a person did last in the same program is kept, and can be gone on with.
  async offerLast(origin) {
    const { app } = this, open = await Claim.all();
    const last = (await app.store.list()).find((it) => it.origin === origin && it.isTouched && !open.has(Claim.name(it.id)));
    if (last) app.offer(`Your last session of this, of ${timeOf(last.used)}, is kept.`, [['Go on with it', () => this.reopen(last.id)]]);
  }

  // Where there are many sessions, one can go: none does unasked.
  async offerOldest() {
    const { app } = this, { store } = app, { session, count } = await store.oldest() ?? {};
    if (!session || app.offered) return;
    app.offer(`${count} sessions are kept in this browser. The one that was used longest ago is ${nameOf(session)}, of ${timeOf(session.used)}.`, [
      ['Download and forget it', async () => { await app.kept.exports(session); await store.forget(session.id); }],
    ], () => { store.most = count + MOST_SESSIONS; }, 'Keep it');
  }

  // The session that is open, in one file, without the files of some names. Where the browser keeps nothing, its files are as the machine
  // has them now.
  async packed(without = []) {
    const { app } = this, record = await app.link.ask('record'), { session } = app.store;
    const there = async () => Promise.all((await app.link.ask('files')).map(async ([name]) => ({ name, bytes: await app.link.ask('file', { name }) })));
    return packedOf({ record, kwords: this.kwords, talks: app.desk.isTalk, files: session ? await app.store.files(session.id, without) : await there() });
  }

  // The session that is open as a link, where it is small: without the files that ship with the page.
  async toLink() {
    const { app } = this, link = `${location.href.split('#')[0]}#${LINK}${linkText(await this.packed(app.ships()))}`;
    const size = link.length - link.indexOf('#');
    if (size > MOST_LINK) { app.note(`The session has ${counted(size)} characters as a link, and ${counted(MOST_LINK)} are the most: download it.`); return; }
    const isCopied = await navigator.clipboard?.writeText(link).then(() => true, () => false);
    app.note(isCopied ? `The link is copied; it has ${counted(size)} characters.` : link);
  }

  // A session that the page's address has in it: a person is asked first.
  async fromLink() {
    const { app } = this, [, text] = location.hash.split(LINK);
    if (!text || !location.hash.startsWith(`#${LINK}`)) return;
    try {
      if (text.length > MOST_LINK) throw new Error('it is too long');
      const bytes = bytesOfLink(text), { script, files, kwords } = await unpacked(bytes), lines = (script.match(/^[^#\n]/gm) ?? []).length;
      const told = `This link has a session of ${counted(lines)} lines with ${counted(files.length)} files for a machine of ${kwords} thousand words.`;
      const isWanted = await app.ask(told, 'Run it');
      history.replaceState(null, '', location.pathname + location.search);   // it isn't asked again when the page is opened again
      if (isWanted) await this.openPacked('A session in a link', bytes);
    } catch (error) {
      app.note(`The link has no session: ${error.message}.`);
    }
  }

  // Keeps what is done from now on as a session of its own.
  begin(facts) { this.app.store.begin(facts).then(() => Promise.all([this.app.kept.show(), this.offerOldest()])); }

  // Puts a file into the store, and keeps it with the session.
  async put(name, bytes) {
    await this.app.link.ask('put', { name, bytes });
    this.app.store.file(name, bytes);
  }

  // The console wants a file that isn't the session's: it may ship with the page.
  async find(name) {
    const { app } = this, bytes = app.ships().includes(name) ? await Shelf.bytes(name).catch(() => null) : null;
    if (bytes) await this.put(name, bytes);
    await app.link.ask('found', { name });
  }

  // Opens a kept session, also where another tab has it if that is asked for: whether it could.
  async reopen(id, isTaken = false) {
    const { store } = this.app;
    await store.last;   // a new session that was asked for before may leave this one
    if (store.session?.id === id) return true;
    const claim = await store.claimOf(id, isTaken), kept = claim && await store.kept(id);
    if (!kept) { claim?.free(); return false; }
    await store.leave();
    store.hold(claim);
    await this.resume(kept);
    await this.app.kept.show();
    return true;
  }

  // Goes on with a kept session: from its pages, and what was recorded since is played; or all of its record is played again.
  async resume(kept) {
    const { app } = this, { session, lines, pages } = kept, { isTalking } = session, began = performance.now();
    const isLast = await this.open(session.kwords, { kept: { lines, pages, steps: session.steps } });
    if (!isLast) return;
    await app.store.resume({ session, lines: lines.slice(0, isLast.lines) });
    const { isRevived } = isLast, there = isRevived ? (await app.link.ask('files')).map(([name]) => name) : [];
    for (const { name, bytes } of await app.store.files(session.id, there)) await app.link.ask('put', { name, bytes });
    const offer = isRevived ? null : this.offerToStop(lines.length, session.turns);
    const again = await app.link.ask('again');
    offer?.close();
    if (!isLast()) return;
    this.goOn(kept, isLast, again);
    await this.go({ talks: isTalking && !again.isRunning, redraws: !again.isRunning });
    app.back = { isRevived, ms: performance.now() - began };
  }

  // What a session that goes on shows.
  goOn({ session, pages }, { isRevived, isScripted }, { typed, turns }) {
    const { app } = this;
    if (isRevived) app.screen.showAgain(pages.head.screen);
    for (const bytes of typed) app.screen.write(bytes);
    app.screen.takeReplies();
    if (app.screen.x > 0) app.say('\n');
    app.say(`(The session goes on after ${turns.toLocaleString('en')} turns.)\n`);
    if (isScripted) app.note('The script that was under way is done again from the last second on.');
    else if (turns !== session.turns) app.note(`The record came to ${turns} turns, and the session had ${session.turns}.`);
    app.setClock(session.hertz ?? 0);
    app.setPace(session.pace ?? 0);
  }

  // Says that a record is played again, with how far it is, and offers to end that.
  offerToStop(lines, turns) {
    this.bar = Object.assign(document.createElement('progress'), { max: Math.max(1, turns), value: 0, ariaLabel: 'how much of it was played' });
    const told = document.createElement('span');
    told.append(`The session of ${lines.toLocaleString('en')} lines goes on: its record is played again. `, this.bar);
    return this.app.offer(told, [['Begin with a new machine instead', () => this.leave()]]);
  }

  // How many turns the machine has made: it may be coming to where it was.
  progress(turns) { if (this.bar) this.bar.value = turns; }

  // Ends the worker, also while it plays a long record, and begins anew; the session stays kept.
  async leave(why = '') {
    await this.app.store.leave();
    this.app.connect();
    if (why) this.app.say(`\n${why}\n`);
    await this.fresh();
  }

  // The module has trapped. What was done is offered as a record, and a new machine takes its place.
  async lost(why) {
    const { app } = this;
    const record = await app.link.ask('record').catch(() => null);
    app.say(`\nThe machine is lost: ${why}.\n`);
    await this.fresh();
    if (record === null) return;
    app.offer(`The machine before was lost (${why}); its record has what was done.`, [
      ['Download its record', () => downloadRecord('lost.p11', record)],
    ]);
  }

  // -- a file that was dropped or picked, for a drive where one is named
  async take(file, drive) {
    const { app } = this, { name, size } = file;
    if (size > MOST_BYTES) { app.note(`${has(name, size)}: a file of more than ${counted(MOST_BYTES)} isn't read.`); return; }
    const bytes = await contentOf(file);
    if (app.desk.isHeld) { app.note(`${name} is left out: the machine isn't ready yet.`); return; }
    if (!bytes) { app.note(`${name} can't be read: of a folder, drop the files that are in it.`); return; }
    const asked = (line, tape) => app.link.ask('answer', { line, bytes: tape });
    const { kind, doubt, refused, lacks } = drive === undefined ? await kindOf(name, bytes, asked) : imageOf(name, size);
    if (refused) { app.note(`${refused}.`); return; }
    if (doubt && !await app.ask(doubt, 'Mount it')) { app.note(`${name} is left out.`); return; }
    if (kind === 'packed') { await this.openPacked(name, bytes); return; }
    if (kind === 'script') { await this.play(name, bytes); return; }
    const isTaken = await this.use(name, kind === 'pack' && size > PACK_BYTES ? bytes.slice(0, PACK_BYTES) : bytes, kind, drive);
    if (isTaken && lacks) app.note(`${name} is mounted on drive ${drive}: ${lacks}.`);
  }

  // A script is no file of the session: its lines are in the record.
  async play(file, bytes) {
    const { app } = this, name = await this.nameFor(file);
    await app.desk.halt();
    await app.link.ask('put', { name, bytes });
    await app.desk.type(`do ${name}`);
  }

  // A name that no file has.
  async nameFor(file) {
    const taken = await this.app.link.ask('files');
    return nameFor(file, (it) => taken.some(([other]) => other === it));
  }

  // Mounts a pack or loads a tape: whether it was taken.
  async use(file, bytes, kind, drive) {
    const { app } = this, name = await this.nameFor(file);
    await this.put(name, bytes);
    const to = drive ?? app.drives.firstEmpty();
    const { answer, reason } = await app.desk.command(kind === 'tape' ? `load ${name}` : `mount ${to} ${name} rw`);
    if (reason) app.note(`${file}: ${reason}.`);
    else app.note(kind === 'tape' ? loadedNote(file, answer) : `${file} is mounted on drive ${to}.`);
    return !reason;
  }

  // What the page's address asks for beside the page: a pack, which boots from drive 0, or a script.
  async beside(kind, name) {
    const { app } = this, file = name.replace(/.*\//, '');
    if (!URL.canParse(name, location.href) || new URL(name, location.href).origin !== location.origin) {
      app.note(`${name} isn't at the place that this page is from.`);
      return;
    }
    const bytes = await Shelf.bytes(name).catch(() => null);
    if (!bytes) app.note(`${name} isn't there.`);
    else if (kind === 'script' && isImage(bytes)) app.note(`${noScript(file)}.`);
    else if (kind === 'script') await this.play(file, bytes);
    else if (await this.use(file, bytes, kind, 0)) await app.drives.boot(0);
  }
}

// The bytes of a file, or null where it has none that can be read, as a folder.
async function contentOf(file) { return file.arrayBuffer().then((it) => new Uint8Array(it), () => null); }

// The record of a kept session, as ./p11 plays it.
function recordOf({ session, lines }) {
  const steps = [];
  for (let { steps: left } = session; left > 0; left -= 1e8) steps.push(`step ${Math.min(left, 1e8)}`);
  return [...lines, ...steps].map((line) => line + '\n').join('');
}

function loadedNote(file, answer) {
  const [, bytes, start] = answer.trim().split(' ');
  const then = start === 'none' ? 'it names no start' : `to run it: start ${start}, then talk`;
  return `${file}: ${bytes} bytes are in memory; ${then}.`;
}

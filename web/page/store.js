// What the browser keeps of a session, so that nothing is lost when the page is closed: the lines of its record, the files that were
// put into it, and the pages of its module's memory, by which it is back at once, in IndexedDB. Other sessions stay kept beside it.
//   const store = await Store.open(); store.begin({ kwords: 28 }); store.add(..); await store.last; await store.list();
// Where the browser refuses it, store.refused says why, and nothing more is kept until a session begins that can be.
// Kept is what `change` has come back for: the browser has it then, also where the page is closed or the browser is killed at once; where
// the power goes, the last seconds may be lost. So the page shows what the console says of a line once that line is kept. Not kept are a
// line that isn't entered, keys that wait, and of a run that goes on what was done in its last quarter of a second.
'use strict';

const MOST_SESSIONS = 20, MOST_UNTOUCHED = 5, MOST_LINES = 200, PATIENCE_MS = 4000, SILENT = "its storage doesn't answer", TABLES = ['sessions', 'lines', 'files', 'pages'], HEAD = -2;
const NO_SESSION = 0, FULL_LOG = 160, ROW_BYTES = 32768;   // the number that no session has; rows of it that fill a log of Chromium's (4 MB)
const ofSession = (id) => IDBKeyRange.bound([id], [id, []]);

const pause = (ms) => new Promise((done) => { setTimeout(done, ms); });
const wait = (request) => new Promise((done, fail) => {
  request.onsuccess = () => done(request.result);
  request.onerror = () => fail(request.error);
});

// The database; an earlier page's has no pages. Another tab may have that one open. Chromium tells where a damaged one was dropped.
function opened(onloss) {
  const request = indexedDB.open('p11', 2);
  request.onupgradeneeded = ({ oldVersion, dataLoss, dataLossMessage }) => {
    if (dataLoss === 'total') onloss(dataLossMessage);
    const { result } = request;
    if (oldVersion < 1) {
      result.createObjectStore('sessions', { keyPath: 'id', autoIncrement: true });
      result.createObjectStore('lines', { keyPath: ['id', 'from'] });
      result.createObjectStore('files', { keyPath: ['id', 'name'] });
    }
    result.createObjectStore('pages', { keyPath: ['id', 'n'] });   // in front of them, at HEAD, what is known beside them
  };
  return new Promise((done, fail) => {
    request.onblocked = () => fail(new Error('another tab has an earlier form of this page'));
    wait(request).then(done, fail);
  });
}

class Store {
  static async open() {
    const store = new Store();
    try {
      const there = opened((why) => { store.loss = why; }).then((db) => Object.assign(store, { db }));
      if (!await Promise.race([there, pause(PATIENCE_MS)])) {
        store.late = there.then(() => store.onrefused(store.refused = ''));
        throw new Error(SILENT);
      }
      store.db.onversionchange = () => store.db.close();
    } catch (error) {
      store.refuse(error);
    }
    return store;
  }

  constructor() {
    this.db = null;
    this.late = null;         // what waits for a database that the browser was slow to open
    this.session = null;      // { id, name, begun, used, kwords, steps, turns, count, bytes, isTalking, origin, isTouched }; count is that of lines
    this.isTouched = false;   // whether a person did something in it; origin is what it was booted of
    this.isSilent = false;    // whether it is told that the browser doesn't answer
    this.most = MOST_SESSIONS;   // how many sessions there are before it is asked about the oldest
    this.row = null;          // the last row of its lines
    this.claim = null;
    this.refused = '';
    this.loss = null;         // why the browser has lost what was kept, if it has
    this.onrefused = () => {};
    this.onlost = () => {};
    this.last = Promise.resolve();
  }

  refuse(error) {
    this.session = null;
    this.refused = error?.name === 'QuotaExceededError' ? 'its storage is full' : String(error?.message ?? error);
    this.onrefused(this.refused);
  }

  // Does something over all tables, behind what was asked for before; a refusal ends the keeping and is told, since the page
  // goes on without it.
  change(work, otherwise) {
    this.last = this.last.then(() => this.attempt(work, otherwise));
    return this.last;
  }

  // Where it is refused something else may be done in its place.
  async attempt(work, otherwise) {
    if (!this.db) return undefined;
    const patience = setTimeout(() => { this.isSilent = true; this.onrefused(SILENT); }, PATIENCE_MS);
    try {
      const all = this.db.transaction(TABLES, 'readwrite', { durability: 'relaxed' });
      const table = (name) => all.objectStore(name);
      const ended = new Promise((done, fail) => { all.oncomplete = done; all.onabort = () => fail(all.error); });
      ended.catch(() => {});
      const result = await work(table);
      await ended;
      return result;
    } catch (error) {
      if (otherwise) return this.attempt(otherwise);
      this.refuse(error);
      return undefined;
    } finally {
      clearTimeout(patience);
      if (this.isSilent) this.onrefused(this.refused);
      this.isSilent = false;
    }
  }

  // Has Chromium begin a new log of what it writes. Where it was killed, or the power went, the last record of the log may be cut off. It
  // writes behind that record when it is opened again, and the next time takes the log for damaged and drops all that was kept. It begins a
  // new log at the first record behind one that is full. Of the browsers Chromium alone tells of such a loss.
  beginLog() {
    if (!this.db || !('dataLoss' in IDBVersionChangeEvent.prototype)) return;
    const bytes = new Uint8Array(ROW_BYTES), otherwise = () => {};
    this.change((table) => { for (let n = 0; n < FULL_LOG; n++) table('pages').put({ id: NO_SESSION, n, bytes }); }, otherwise);
    this.change((table) => { table('pages').delete(ofSession(NO_SESSION)); }, otherwise);
  }

  // A new session. Those that nothing was done in go, and of those that were booted and left alone all but the last; none that has a name
  // of its own, or that a tab has. What a person did stays: of the oldest the memory's pages go, which the record makes again.
  begin(facts) {
    this.isTouched = false;
    this.last = this.last.then(async () => {
      this.hold(null);
      const open = await Claim.all(), now = Date.now();
      await this.attempt(async (table) => {
        this.session = null;
        const all = (await wait(table('sessions').getAll())).filter(({ id, name }) => !open.has(Claim.name(id)) && !name).toSorted(byUse);
        for (const { id } of [...all.filter(isEmpty), ...all.filter(isUntouched).slice(MOST_UNTOUCHED)]) this.drop(table, id);
        for (const { id } of all.filter(isWork).slice(MOST_SESSIONS)) table('pages').delete(ofSession(id));
        const session = { name: '', begun: now, used: now, steps: 0, turns: 0, count: 0, bytes: 0, isTalking: false, ...facts };
        session.id = await wait(table('sessions').add(session));
        this.session = session;
        this.refused = '';
        this.onrefused('');
      });
      if (this.session) this.hold(await this.claimOf(this.session.id));
    });
    return this.last;
  }

  // The session that was used longest ago, and how many there are, where they are too many; none that has a name, or that a tab has.
  async oldest() {
    const open = await Claim.all(), all = (await this.list()).filter((it) => isWork(it) && !it.name && !open.has(Claim.name(it.id)));
    return all.length > this.most ? { session: all.at(-1), count: all.length } : null;
  }

  // A person does something in the session.
  touch() {
    if (this.isTouched) return;
    this.isTouched = true;
    this.note({ isTouched: true });
  }

  // The claim of this tab to a session; null where another one has it.
  claimOf(id, isTaken = false) { return Claim.of(id, { isTaken, onlost: () => { this.session = null; this.onlost(); } }); }

  hold(claim) {
    this.claim?.free();
    this.claim = claim;
  }

  drop(table, id) {
    table('sessions').delete(id);
    for (const name of ['lines', 'files', 'pages']) table(name).delete(ofSession(id));
  }

  // What the record has gained, and with it the pages that have changed: whether they are kept. Where there is no room for them, the
  // pages of all sessions go, and the record is kept without.
  add(gained) {
    if (gained.lines.length > 0 && !this.isAsked) {
      this.isAsked = true;
      navigator.storage?.persist?.().catch(() => {});
    }
    const without = (table) => {
      table('pages').clear();
      return this.addLines(table, gained) && false;
    };
    return this.change((table) => this.addLines(table, gained) && this.addPages(table, this.session.id, gained.pages), gained.pages ? without : undefined);
  }

  // Whether there is a session to which they can be added.
  addLines(table, { from, lines, steps, turns }) {
    const { session } = this, count = from + lines.length;
    if (!session) return false;
    if (count > session.count) session.bytes += lines.reduce((sum, line) => sum + line.length + 1, 0);
    Object.assign(session, { steps, turns, used: Date.now(), count });
    if (lines.length > 0) table('lines').put(this.rowWith(from, lines));
    table('sessions').put(session);
    return true;
  }

  // Lines come a few at a time, and many rows are slow to read: so they go into the last one, until it has MOST_LINES.
  rowWith(from, lines) {
    const { row, session: { id } } = this, isIn = row?.id === id && from >= row.from && from <= row.from + row.lines.length;
    const isMore = isIn && row.lines.length < MOST_LINES;
    this.row = isMore ? { id, from: row.from, lines: [...row.lines.slice(0, from - row.from), ...lines] } : { id, from, lines };
    return this.row;
  }

  addPages(table, id, pages) {
    if (!pages) return false;
    if (pages.isAll) table('pages').delete(ofSession(id));
    table('pages').put({ id, n: HEAD, head: pages.head });
    for (const { n, bytes } of pages.rows) table('pages').put({ id, n, bytes });
    return true;
  }

  note(facts) {
    return this.change((table) => {
      if (this.session) table('sessions').put(Object.assign(this.session, facts));
    });
  }

  file(name, bytes) {
    return this.change((table) => {
      const { session } = this;
      if (!session) return;
      session.bytes += bytes.length;
      table('files').put({ id: session.id, name, bytes });
      table('sessions').put(session);
    });
  }

  // The sessions that are kept, the one that was used last in front.
  async list() { return (await this.change((table) => wait(table('sessions').getAll())) ?? []).toSorted(byUse); }

  // A kept session: what it was, its lines, and its pages, if it has any; null where there is none of the number.
  async kept(id) {
    return (await this.change(async (table) => {
      const [session, parts, [first, ...rows]] = await Promise.all([
        wait(table('sessions').get(id)), ...['lines', 'pages'].map((name) => wait(table(name).getAll(ofSession(id))))]);
      if (!session) return null;
      return { session, lines: parts.flatMap((part) => part.lines), pages: first ? { head: first.head, rows } : null };
    })) ?? null;
  }

  // The files that were put into a session, but for those of these names.
  async files(id, without = []) {
    return (await this.change(async (table) => {
      const names = await wait(table('files').getAllKeys(ofSession(id)));
      return Promise.all(names.filter(([, name]) => !without.includes(name)).map((key) => wait(table('files').get(key))));
    })) ?? [];
  }

  // Goes on with a kept session, whose lines become one row.
  resume({ session, lines }) {
    this.isTouched = false;
    return this.change((table) => {
      this.session = Object.assign(session, { used: Date.now(), count: lines.length, bytes: session.bytes ?? 0 });
      this.row = null;
      table('lines').delete(ofSession(session.id));
      table('lines').put({ id: session.id, from: 0, lines });
      table('sessions').put(session);
    });
  }

  // Keeps nothing of what follows, until a session begins or is resumed.
  leave() {
    return this.change(() => { this.session = null; });
  }

  rename(id, name) {
    return this.change(async (table) => {
      const session = await wait(table('sessions').get(id));
      if (this.session?.id === id) this.session.name = name;
      if (session) table('sessions').put({ ...session, name });
    });
  }

  forget(id) {
    return this.change((table) => this.drop(table, id));
  }
}

const isEmpty = ({ turns, count, bytes }) => turns === 0 && count === 0 && bytes === 0;
const isUntouched = ({ origin, isTouched }) => Boolean(origin) && !isTouched;
const isWork = (it) => !isEmpty(it) && !isUntouched(it);
const byUse = (one, other) => (other.used ?? 0) - (one.used ?? 0) || other.id - one.id;

// node hour.js PAGE TIMES COMMAND..: after an hour's busy run with eight packs of noise and the line clock by the wall the page is closed in the
// run and opened so often, in each of the browsers (COMMAND): each time the session is back within two seconds. Not an hour is waited: while
// the page is closed, what the journal writes in one is put in front of the record of a run of some seconds. Exit status 1: it took longer.
'use strict';
const assert = require('assert'), os = require('os'), path = require('path');
const { open } = require('./browser.js');
const { isBack, COUNTS, MOST_MS } = require('./back.js');
const { serve } = require('./serve.js');
const { sleep } = require('./page.js');

const LINES = 2 * 60 * 3600, RUN_MS = 3000;   // a step and a tick, sixty times a second

// A busy run with the clock, and on each drive a pack that is noise.
const BUSY = `(async () => {
  await app.sessions.fresh(28);
  for (let drive = 0; drive < 8; drive++) {
    const bytes = new Uint8Array(2494464);
    for (let at = 0; at < bytes.length; at += 65536) crypto.getRandomValues(bytes.subarray(at, at + 65536));
    await app.sessions.put('noise' + drive, bytes);
    await app.desk.command('mount ' + drive + ' noise' + drive + ' rw');
  }
  await app.desk.commands(${JSON.stringify(COUNTS.trim().split('\r'))});
  app.setClock(60);
  await app.desk.talk();
})()`;

// In another page of the same place: the record of the session that was used last gets the lines of an hour in front, if it hasn't got them, in
// rows of so many.
const lengthened = (most) => `new Promise((done, fail) => {
  const request = indexedDB.open('p11', 2), wait = (it, act) => { it.onsuccess = () => act(it.result); };
  wait(request, (db) => {
    const all = db.transaction(['sessions', 'lines', 'pages'], 'readwrite'), table = (name) => all.objectStore(name);
    wait(table('sessions').getAll(), (sessions) => {
      const session = sessions.toSorted((one, other) => other.used - one.used)[0], { id } = session, its = IDBKeyRange.bound([id], [id, []]);
      wait(table('lines').getAll(its), (rows) => wait(table('pages').get([id, -2]), (first) => {
        const own = rows.flatMap((row) => row.lines), more = own.length < ${LINES} ? ${LINES} : 0;
        const lines = [...Array.from({ length: more }, (_, n) => (n % 2 === 0 ? 'step ' + (400000 + n) : 'tick')), ...own];
        first.head.state.lines += more;
        session.count += more;
        table('lines').delete(its);
        for (let from = 0; from < lines.length; from += ${most}) table('lines').put({ id, from, lines: lines.slice(from, from + ${most}) });
        table('pages').put(first);
        table('sessions').put(session);
      }));
    });
    all.onabort = () => fail(all.error);
    all.oncomplete = () => { db.close(); done(true); };
  });
})`;

async function hour({ page, url, times }) {
  const took = [], opened = [], most = await page.eval('MOST_LINES');
  await page.eval(BUSY);
  for (let n = 0; n < times; n++) {
    await page.until("app.store.change((table) => wait(table('pages').count(ofSession(app.store.session.id)))).then((count) => count > 0)");
    await sleep(RUN_MS);
    await page.replace();
    await page.navigate(`${url}tests/cases.html`);
    await page.until("document.readyState === 'complete' && document.title === 'p11: sessions'");
    await page.eval(lengthened(most));
    await page.goTo(url);
    await isBack(page);
    opened.push(Math.round(await page.eval('performance.now()')));
    const { isRevived, ms } = await page.eval('app.back');
    assert(isRevived, 'the session is not back by its pages');
    took.push(Math.round(ms));
  }
  return { took, opened };
}

async function run([made, times, ...commands]) {
  const server = await serve({ '/': path.join(made, 'site'), '/tests/': __dirname }), url = `http://127.0.0.1:${server.address().port}/`;
  try {
    for (const command of commands) {
      const page = await open(url, { downloads: os.tmpdir(), command });
      try {
        const { took, opened } = await hour({ page, url, times: +times });
        const within = took.filter((ms) => ms < MOST_MS).length;
        console.log(`soak/page: ${page.product}: back ${within} times of ${times} within ${MOST_MS} ms after ${LINES} lines: ${took.join(', ')}; `
          + `from the address on ${opened.join(', ')}`);
        assert.equal(within, +times);
      } finally {
        await page.close();
      }
    }
  } finally {
    server.close();
    server.closeAllConnections();
  }
}

run(process.argv.slice(2)).catch((error) => {
  console.error(`soak/page: FAILED: ${error.stack}`);
  process.exit(1);
});

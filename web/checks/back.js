// A session is back at once, from the kept pages of its module's memory: the same machine that its record comes to if it is played again,
// as it is for another module, with a button that ends that; also where the browser was killed, and within a write.
'use strict';
const assert = require('assert'), fs = require('fs'), os = require('os'), path = require('path');
const { open, isFirefox } = require('./browser.js');
const { sleep } = require('./page.js');
const { play, stateOf, STATE } = require('./compare.js');
const { settle, kept } = require('./evening.js');

const LINES = 100, TURNS = 50000000, ONE_RUN = 90000000, MOST_MS = 2000, TRIES = 3, KILLS = 4, RELOADS = 8, MOST_LATE = 60, MOST_WAIT = 2500, LATE_MS = 2500, CUT = 5;
const COUNTS = 'deposit 1000 5267 1000 5200 10021 20127 20000 103402 12701 4000 766\rset 1 4000\rstart 1000\r';
const record = (page) => page.eval("app.link.ask('record')");
const turnsOf = (page) => page.eval("app.link.ask('regs').then((it) => it.turns)");
const attempt = (page, line) => page.eval(`app.desk.command(${JSON.stringify(line)})`);

// What the page shows and has, on one line.
const shown = (page) => page.eval(`JSON.stringify({ back: app.back ?? null, session: app.store?.session ?? null,
  offer: document.querySelector('#offer').innerText, note: document.querySelector('#note').textContent, text: app.view.text().trim().slice(-300) })`);

const isBack = (page, when = '') => page.until('app.back && !app.desk.isHeld && app.link.asked.size === 0').catch(async (error) => {
  throw new Error(`${when}${error.message}; the page has ${await shown(page)}`);
});

// Until the pages are kept too, as the machine is now, between two runs.
async function keptWhole(page) {
  await kept(page);
  await page.until(`Promise.all([app.store.kept(app.store.session.id), app.link.ask('record')]).then(([{ lines, pages }, record]) =>
    pages !== null && pages.head.state.lines === lines.length && lines.map((line) => line + '\\n').join('') === record)`);
}

// Has the session open next time as if it were another module's.
const ofAnother = (page) => page.eval(`app.store.change((table) => {
  const request = table('pages').get([app.store.session.id, -2]);
  request.onsuccess = () => table('pages').put({ ...request.result, head: { ...request.result.head, module: 'another' } });
})`);

async function back({ page, url, say }) {
  await page.goTo(url);
  await page.eval('app.sessions.fresh(28)');
  await page.click('#screen');
  await page.type(`${COUNTS}continue ${TURNS}\r`);
  await page.until(`app.view.text().includes('STOP turns ${TURNS} ')`);
  const state = await stateOf(page), was = await record(page);
  await keptWhole(page);
  for (const isRevived of [true, false]) {
    if (!isRevived) {
      await keptWhole(page);
      await ofAnother(page);
    }
    await page.replace();
    await page.navigate(url);
    await page.until("globalThis.app?.desk !== undefined && document.querySelector('#keys').value === ' '");
    await page.click('#screen');
    await page.type('examine 1000\r');
    await isBack(page);
    await page.until("app.view.text().includes('EXAM 001000 005267')");
    const times = [(await page.eval('app.back')).ms];
    assert.equal(await page.eval('app.back.isRevived'), isRevived, 'the session is back by the other way');
    const now = await record(page);
    assert(now.startsWith(was) && now.endsWith('\nexamine 1000 1\n'), 'the record is another');
    assert.equal(await stateOf(page), state, 'registers, devices or memory are others');
    while (isRevived && times.at(-1) >= MOST_MS && times.length < TRIES) {   // the computer has more to do
      await keptWhole(page);
      await page.reopen(url);
      await isBack(page);
      times.push((await page.eval('app.back')).ms);
    }
    const ms = times.at(-1);
    if (isRevived) assert(ms < MOST_MS, `the session is back in ${times} ms`);
    say(isRevived ? `a session is back ${TURNS.toLocaleString('en')} turns later in ${Math.round(ms)} ms, and a key pressed meanwhile comes after`
      : `of another module the record is played again in ${Math.round(ms)} ms: the same machine`);
  }
}

// A session whose pages are older than its record, and which is slow to come back: nothing is kept of it before it is there.
async function late({ page, say }) {
  await page.eval('app.sessions.fresh(28)');
  for (const line of COUNTS.trim().split('\r')) await attempt(page, line);
  await page.eval('app.setClock(60)');
  await page.eval('app.desk.talk()');
  const grown = (lines) => page.until(`app.store.kept(app.store.session.id).then(({ lines, pages }) => pages !== null && lines.length >= pages.head.state.lines + ${lines})`);
  await grown(0);
  await page.until("app.store.kept(app.store.session.id).then(({ pages }) => pages !== null && app.link.ask('kept', { machine: pages.head.machine, isKept: false }).then(() => true))");
  await grown(20);
  await page.eval('app.desk.halt()');
  const state = await stateOf(page), was = await record(page), id = await page.eval('app.store.session.id');
  await kept(page);
  await page.eval('app.sessions.fresh(28)');
  await page.eval(`(async () => {
    const { link } = app, { ask } = link;
    link.ask = async (call, args) => { if (call === 'again') await new Promise((done) => setTimeout(done, ${LATE_MS})); return ask.call(link, call, args); };
    try { await app.sessions.reopen(${id}); } finally { link.ask = ask; }
  })()`);
  await page.until("!app.desk.isHeld && app.link.asked.size === 0 && app.view.text().trimEnd().endsWith('p11>')");
  assert(await page.eval('app.back.isRevived'), 'the session is not back by its pages');
  assert.equal(await record(page), was, 'the record is another');
  assert.equal(await stateOf(page), state, 'registers, devices or memory are others');
  await keptWhole(page);
  say('a session that is slow to come back is the same, and so is what is kept of it');
}

// The record of a long run is played again with how far it is; a button ends that, and the session stays kept.
async function stopped({ page, url, say }) {
  const first = await page.eval('app.store.session.id');
  await keptWhole(page);
  await page.eval('app.store.change((table) => { app.store.session.steps = 2000000000; table("sessions").put(app.store.session); })');
  await ofAnother(page);
  await page.replace();
  await page.navigate(url);
  await page.until("document.querySelector('#offer progress')?.value > 0");
  await page.click('#offer button');
  await page.until("app.store.session && !app.desk.isHeld && app.view.text().trimEnd().endsWith('p11>')");
  assert.notEqual(await page.eval('app.store.session.id'), first);
  assert(await page.eval(`app.store.kept(${first}).then((it) => it !== null)`), 'the session that was stopped is gone');
  await page.eval(`app.store.forget(${first})`);
  say('a long record is played with how far it is, and a button ends that');
}

// A script that was under way when the page was closed goes on, and nothing of it is done twice or left out.
async function scripted({ page, url, say }) {
  await page.goTo(url);
  await page.eval('app.sessions.fresh(28)');
  for (const line of COUNTS.trim().split('\r')) await attempt(page, line);
  const was = await record(page), numbers = Array.from({ length: LINES }, (_, n) => (n + 1).toString(8));
  const script = numbers.map((number) => `continue 1000000\ndeposit 5000 ${number}\n`).join('');
  await page.eval(`(async () => { await app.link.ask('put', { name: 'long', bytes: new TextEncoder().encode(${JSON.stringify(script)}) }); app.desk.type('do long'); })()`);
  await page.until('app.store.kept(app.store.session.id).then(({ lines, pages }) => lines.length > 10 && pages?.head.state.own.isScripted)');
  await page.replace();
  await page.navigate(url);
  await isBack(page);
  assert(await page.eval('app.back.isRevived'), 'the session is not back by its pages');
  const wanted = was + numbers.map((number) => `step 1000000\ndeposit 5000 ${number}\n`).join('');
  await page.until(`app.link.ask('record').then((it) => it.length >= ${wanted.length})`);
  assert.equal(await record(page), wanted, 'the record is another');
  await keptWhole(page);
  const kept = await page.eval("app.store.kept(app.store.session.id).then(({ lines }) => lines.map((line) => line + '\\n').join(''))");
  assert.equal(kept, wanted, 'the record that is kept is another');
  // One whose only line is a long run: what is kept of its turns is more than what the memory's pages have.
  await page.eval('app.sessions.fresh(28)');
  for (const line of COUNTS.trim().split('\r')) await attempt(page, line);
  await page.eval(`(async () => { await app.link.ask('put', { name: 'one', bytes: new TextEncoder().encode('continue ${ONE_RUN}\\n') }); app.desk.type('do one'); })()`);
  await page.until('app.store.kept(app.store.session.id).then(({ session, pages }) => pages?.head.state.own.isScripted && session.turns > pages.head.state.own.turns)');
  await page.reopen(url);
  await isBack(page);
  assert.equal(await page.eval("document.querySelector('#note').textContent"), 'The script that was under way is done again from the last second on.');
  await page.until(`app.view.text().includes('STOP turns ${ONE_RUN} ')`);
  say(`a script of ${2 * LINES} lines goes on where the page was closed in it, as one does within its only run`);
}

// The browser is killed at random moments of a run in which keys are pressed and a pack is written to: what was kept is there, and the
// machine is that to which ./p11 comes by the record.
async function kills({ command, url, native, say, count = KILLS }) {
  const home = fs.mkdtempSync(path.join(os.tmpdir(), 'p11-killed-'));
  let told = 0, revived = 0, page = null;
  try {
    for (let n = 0; n <= count; n++) {
      page = await open(url, { downloads: native.folder, command, home });
      if (n === 0) {
        await attempt(page, 'deposit 1000 777');
        await page.until('app.store.session?.count > 0 && app.store.last.then(() => true)');
      } else {
        await isBack(page, `after kill ${n}, where ${told} turns were told: `);
        revived += await page.eval('app.back.isRevived');
        await page.eval('app.desk.halt()');
        const turns = await turnsOf(page), [state, script] = [await stateOf(page), await record(page)];
        assert(turns >= told, `after kill ${n} ${told} turns were told, and ${turns} are there`);
        assert(play(script, native).endsWith(state), `after kill ${n} ./p11 comes to another state`);
      }
      for (const line of COUNTS.trim().split('\r')) await attempt(page, line);
      await page.eval("app.setClock(60)");
      await page.eval('app.desk.talk()');
      for (const end = Date.now() + Math.random() * MOST_WAIT; Date.now() < end;) {
        told = await page.eval(`(async () => { await app.link.ask('keys', { bytes: [120] });
          const { turns } = app.store.session;
          await app.store.last;
          return turns; })()`);
        await sleep(20);
      }
      await page.kill();
      page = null;
    }
  } finally {
    await page?.kill();
    fs.rmSync(home, { recursive: true, force: true, maxRetries: 5, retryDelay: 200 });
  }
  say(`the browser was killed ${count} times: nothing that was kept is lost, ${revived} times the session was back by its pages, and ./p11 comes to the same`);
}

// The page is loaded again at some moment after the text of OK shows: the line that it was said of is there.
async function reloads({ page, url, say, count = RELOADS }) {
  await page.goTo(url);
  await page.eval('app.sessions.fresh(28)');
  for (let n = 1; n <= count; n++) {
    const line = `deposit 5000 ${n.toString(8)}`, late = n % 2 === 0 ? 0 : Math.floor(Math.random() * MOST_LATE);
    await page.eval(`(async () => {
      delete document.documentElement.dataset.ready;
      app.desk.feed(bytesIn(${JSON.stringify(`${line}\r`)}));
      while (!app.view.text().includes(${JSON.stringify(`p11> ${line}\nOK\n`)})) {
        await new Promise((done) => { const { port1, port2 } = new MessageChannel(); port1.onmessage = done; port2.postMessage(0); });
      }
      setTimeout(() => location.reload(), ${late});
      function bytesIn(text) { return [...text].map((c) => c.charCodeAt(0)); }
    })()`);
    await page.until("document.documentElement.dataset.ready === 'yes' && !app.desk.isHeld && app.link.asked.size === 0");
    const lines = (await record(page)).trimEnd().split('\n');
    assert.equal(lines.at(-1), line, `loaded again ${late} ms after the ${n}th OK`);
    assert.equal(lines.length, n, 'a line is there twice, or lacks');
  }
  say(`${count} times the page was loaded again at a moment after OK, and the line was there`);
}

// Cuts off the end of the last record of Chromium's log, if it writes one.
function cutLog(home) {
  const kept = path.join(home, 'Default/IndexedDB'), folder = fs.readdirSync(kept).find((it) => it.endsWith('.leveldb'));
  if (!folder) return;
  const log = path.join(kept, folder, fs.readdirSync(path.join(kept, folder)).find((it) => it.endsWith('.log')));
  fs.truncateSync(log, fs.statSync(log).size - CUT);
}

// Chromium is killed within a write, and leaves half a record: what was kept before it is there the next time, and the time after.
async function torn({ command, url, native, say }) {
  if (isFirefox(command)) return;
  const home = fs.mkdtempSync(path.join(os.tmpdir(), 'p11-torn-'));
  let was = '', page = null;
  try {
    for (let n = 0; n < 3; n++) {
      page = await open(url, { downloads: native.folder, command, home });
      if (n > 0) await isBack(page, `half a record was left, at opening ${n} after that: `);
      const now = n > 0 ? await record(page) : '';
      assert(n === 1 ? was.startsWith(now) && now !== '' : now === was, `half a record was left, at opening ${n} after that: the record is another`);
      for (let word = 0; word < 3; word++) {
        await attempt(page, `deposit 1000 ${word}`);
        await kept(page);
      }
      await keptWhole(page);
      was = await record(page);
      await page.kill();
      page = null;
      if (n === 0) cutLog(home);
    }
  } finally {
    await page?.kill();
    fs.rmSync(home, { recursive: true, force: true, maxRetries: 5, retryDelay: 200 });
  }
  say('half a record that a browser left which was killed costs that record alone, also at the second opening');
}

module.exports = { back, late, stopped, scripted, reloads, kills, torn, isBack, keptWhole, COUNTS, MOST_MS };

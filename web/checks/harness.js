// In the browser: the module over the scripts of bench/, and the page in a frame as a person has it; see harness.html.
'use strict';

const post = (found) => fetch('/report', { method: 'POST', body: JSON.stringify(found) });
const bytesAt = async (name) => new Uint8Array(await (await fetch(name)).arrayBuffer());
const sleep = (ms) => new Promise((done) => { setTimeout(done, ms); });

// The best of three: milliseconds for a whole script, whose answers are compared.
async function rate(module, name) {
  const script = await bytesAt(`/bench/${name}.p11`), wanted = await (await fetch(`/bench/${name}.out`)).text();
  let ms = Infinity, isSame = true;
  for (let n = 0; n < 3; n++) {
    const p11 = await P11.load(module.slice()), began = performance.now(), answers = p11.line(script);
    ms = Math.min(ms, performance.now() - began);
    isSame = isSame && new TextDecoder().decode(answers) === wanted;
  }
  return { name, ms, isSame };
}

// The page in the frame, opened anew.
async function opened() {
  const frame = document.querySelector('#frame');
  delete frame.contentDocument?.documentElement?.dataset.ready;
  frame.src = 'about:blank';
  await sleep(100);
  frame.src = '/';
  for (;;) {
    await sleep(5);
    if (frame.contentDocument?.documentElement?.dataset.ready === 'yes') break;
  }
  return { app: frame.contentWindow.app, view: frame.contentWindow, document: frame.contentDocument };
}

async function until(test, ms = 20000) {
  for (const end = performance.now() + ms; !test();) {
    if (performance.now() > end) throw new Error(`never came: ${test}`);
    await sleep(1);
  }
}

function press({ view, document }, key) {
  document.querySelector('#keys').dispatchEvent(new view.KeyboardEvent('keydown', { key, bubbles: true, cancelable: true }));
}

// From an open page to its prompt: the median of nine, in milliseconds.
async function opening() {
  const times = [];
  for (let n = 0; n < 9; n++) {
    const { app } = await opened();
    times.push(app.openedIn);
  }
  return median(times);
}

// The memory of the module with eight whole packs on the drives, each of which was written to; and after ten saves of one,
// with how long the last took.
async function packs() {
  const { app } = await opened();
  await app.sessions.fresh(28);
  for (let drive = 0; drive < 8; drive++) {
    await app.link.ask('put', { name: `pack${drive}`, bytes: new Uint8Array(2494464).fill(drive + 1) });
    await app.desk.command(`mount ${drive} pack${drive} rw`, true);
  }
  const eight = await app.link.ask('memory');
  let save = 0;
  for (let n = 0; n < 10; n++) {
    const began = performance.now();
    await app.desk.command('save 0 saved', true);
    await app.link.ask('file', { name: 'saved' });
    save = performance.now() - began;
  }
  return { eight, saved: await app.link.ask('memory'), save };
}

// A key's way through a machine that is never idle: from the event to the character in the document. The program counts in
// a loop, and types each key back by an interrupt.
async function keys() {
  const page = await opened(), { app, document } = page;
  await app.sessions.fresh(28);
  for (const line of ['deposit 60 2000 200', 'deposit 1000 12737 100 177560 5201 776',
    'deposit 2000 113700 177562 105737 177564 100375 110037 177566 2', 'set 6 1000', 'start 1000']) await app.desk.command(line, true);
  await app.desk.talk();
  const now = document.querySelector('.now'), times = [];
  await sleep(500);
  for (let n = 0; n < 40; n++) {
    const key = String.fromCharCode(97 + n % 26), before = now.textContent.length, began = performance.now();
    press(page, key);
    await until(() => now.textContent.length > before && now.textContent.includes(key));
    times.push(performance.now() - began);
    await sleep(37);
  }
  await app.desk.halt();
  return { median: median(times), most: Math.max(...times) };
}

const median = (times) => times.toSorted((a, b) => a - b)[Math.floor(times.length / 2)];

(async () => {
  await post({ agent: navigator.userAgent });
  try {
    const module = await bytesAt('/p11.wasm');
    for (const name of ['branch', 'sort', 'sieve', 'interpreter']) await post({ rate: await rate(module, name) });
    await post({ opening: await opening() });
    await post({ packs: await packs() });
    await post({ keys: await keys() });
  } catch (error) {
    const shown = document.querySelector('#frame').contentWindow.app.view.text().slice(-300);
    await post({ error: `${error.message} ${error.stack}; the page shows ${shown}` });
  }
  await post({ isDone: true });
})();

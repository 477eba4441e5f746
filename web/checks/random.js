// Random sessions with the very module in the browser (random-page.js): ./p11 comes by the record of each to the same typed bytes, registers,
// devices, memory and packs; where runs are merged over a HALT it doesn't, which is seen.
'use strict';
const assert = require('assert'), crypto = require('crypto'), fs = require('fs'), path = require('path');
const { execFileSync } = require('child_process');
const { typedIn } = require('./compare.js');

const SESSIONS = 100, AT_A_TIME = 50, ACTS = 60, MOST_PLANTED = 10, SCRIPTS = ['cuts-page.js', 'random-page.js'];
const STATES = ['regs', 'device', 'examine 0 512', 'examine 2000 512', 'examine 4000 512', 'examine 6000 512'];

// What differs between what the page came to and ./p11; nothing where they are the same.
function differs({ kwords, record, typed, state, saved }, { p11, folder }) {
  const script = path.join(folder, 'random.p11');
  for (const name of fs.readdirSync(folder)) if (name.startsWith('saved')) fs.rmSync(path.join(folder, name));
  fs.writeFileSync(script, record + STATES.join('\n') + '\n', 'latin1');
  const answers = execFileSync(p11, ['--memory', String(kwords), script], { cwd: folder, maxBuffer: 1 << 28 }).toString('latin1');
  const sums = Object.fromEntries(Object.keys(saved).map((name) => [name, crypto.createHash('sha256').update(fs.readFileSync(path.join(folder, name))).digest('hex')]));
  if (typedIn(answers) !== typed) return 'the typed bytes';
  if (!answers.endsWith(state)) return 'registers, devices or memory';
  return JSON.stringify(sums) === JSON.stringify(saved) ? '' : 'the saved packs';
}

const some = (page, from, count, isMerged) => page.eval(`sessions(${JSON.stringify({ from, count, acts: ACTS, states: STATES, isMerged })})`);

// Plays sessions of these numbers: how many bytes they typed, and how many packs they saved. Throws where ./p11 comes to something else.
async function alike({ page, url, native, from, count }) {
  await page.navigate(`${url}tests/random.html`);
  await page.until("document.readyState === 'complete' && typeof sessions === 'function'");
  for (let pack = 1; pack <= 3; pack++) fs.writeFileSync(path.join(native.folder, `pack${pack}`), Uint8Array.from({ length: 40000 }, (_, at) => at * pack & 255));
  let typed = 0, packs = 0;
  for (let done = 0; done < count; done += AT_A_TIME) {
    for (const told of await some(page, from + done, Math.min(AT_A_TIME, count - done), false)) {
      assert.equal(differs(told, native), '', `session ${told.number}: ${told.record.slice(0, 2000)}`);
      typed += told.typed.length;
      packs += Object.keys(told.saved).length;
    }
  }
  assert(typed > 0 && packs > 0, 'nothing was typed or saved');
  return { typed, packs };
}

async function random({ page, url, native, say }) {
  const { typed, packs } = await alike({ page, url, native, from: 1, count: SESSIONS });
  const planted = await some(page, 1, MOST_PLANTED, true), at = planted.findIndex((told) => differs(told, native) !== '');
  assert(at >= 0, `runs merged over a HALT are not seen in ${MOST_PLANTED} sessions`);
  say(`${SESSIONS} random sessions, ${typed.toLocaleString('en')} typed bytes and ${packs} packs: ./p11 comes to the same; runs merged over a HALT are seen in session ${at + 1}`);
}

module.exports = { random, alike, SCRIPTS };

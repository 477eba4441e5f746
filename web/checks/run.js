// node run.js PAGE P11 EXAMPLES CASES SUM RECORD COMMAND..: all checks of the page in each of the browsers (COMMAND).
// PAGE is what web/build made (site/ and p11.html), SUM one word for it (web/checked); P11 is the native program,
// CASES is what examples/c/cases wrote. What passed is written to RECORD, for web/checked. Exit status 1: a check failed.
'use strict';
const fs = require('fs'), os = require('os'), path = require('path');
const { open } = require('./browser.js');
const { serve } = require('./serve.js');
const { evening } = require('./evening.js');
const { boots } = require('./boots.js');
const { dialogues } = require('./dialogues.js');
const { kinds } = require('./kinds.js');
const { badFiles, trap, policy, lacking } = require('./bad.js');
const { looks, names, keyboard, glass } = require('./looks.js');
const { sight, letters } = require('./seen.js');
const { untouched, goesOn, many, silent } = require('./work.js');
const { large, images } = require('./large.js');
const { transcript, linked, framed, sent, pastes, faults } = require('./wanted.js');
const { slow, tabs, list, full, earlier } = require('./tabs.js');
const { presses } = require('./presses.js');
const { lamps, steps, flags, switched, levers, followed } = require('./front.js');
const { drives, terminal, keyed, choices } = require('./shown.js');
const { editing, asked, unanswered } = require('./editing.js');
const { cases } = require('./cases.js');
const { back, late, stopped, scripted, reloads, kills, torn } = require('./back.js');
const { cuts } = require('./cuts.js');
const { random } = require('./random.js');
const { packed, lesson } = require('./packed.js');
const { plays, link, beside, pace, sizes, copies, single } = require('./ways.js');

// All checks in one browser: its name with its version, how many different sessions it played, and how many lines they have.
async function checked(command, { made, p11, examples, casesFile }) {
  const folder = fs.mkdtempSync(path.join(os.tmpdir(), 'p11-web-')), began = Date.now();
  const server = await serve({ '/': path.join(made, 'site'), '/examples/': examples, '/tests/': __dirname, '/data/': path.dirname(casesFile),
    '/talks/': path.resolve(examples, '../tests/rattle/p11_talks/data') });
  const url = `http://127.0.0.1:${server.address().port}/`;
  const page = await open(url, { downloads: folder, command });
  const native = { p11: path.resolve(p11), folder };
  const say = (text) => console.log(`web/check: ${page.product}: ${text}`);
  const all = { page, url, made, command, examples: path.resolve(examples), native, say };
  let test = evening;
  const run = (next, more) => {
    test = next;
    return next({ ...all, ...more });
  };
  try {
    await run(plays, await run(evening));
    for (const next of [boots, editing, asked, unanswered, presses, kinds, badFiles, keyboard, names, looks, glass, pace, sizes, copies]) await run(next);
    for (const next of [lamps, steps, flags, switched, levers, followed, drives, terminal, keyed, choices]) await run(next);
    for (const next of [sight, letters, large, images, transcript, linked, framed, sent, pastes, faults]) await run(next);
    for (const next of [untouched, goesOn, many, silent, link, beside, slow, tabs, list, full, earlier, policy, lacking]) await run(next);
    for (const next of [packed, back, late, stopped, scripted, reloads, kills, torn, cuts, random, dialogues]) await run(next);
    const told = await run(cases);
    await run(single);
    await run(lesson);
    await page.goTo(url);
    await run(trap);
    if (page.errors.length > 0) throw new Error(`errors of the page: ${page.errors.join(' | ')}`);
    say(`all of it in ${Math.round((Date.now() - began) / 1000)} s`);
    return { browser: page.product, ...told };
  } catch (error) {
    const shown = await page.eval("app.view.text().slice(-1500) + document.querySelector('#note').textContent").catch(() => '');
    console.error(`${shown}\n${error.stack}`);
    throw new Error(`${page.product}: ${test.name}: ${error.message}`);
  } finally {
    await page.close();
    server.close();
    server.closeAllConnections();
    fs.rmSync(folder, { recursive: true, force: true });
  }
}

async function run([made, p11, examples, casesFile, sum, record, ...commands]) {
  const passed = [];
  for (const command of commands) passed.push(await checked(command, { made, p11, examples, casesFile }));
  const [{ sessions, lines }] = passed;
  for (const it of passed) if (it.sessions !== sessions || it.lines !== lines) throw new Error(`${it.browser} played ${it.sessions} sessions`);
  const told = { page: sum, sessions, lines, records: passed.length, browsers: passed.map(({ browser }) => browser) };
  fs.writeFileSync(record, JSON.stringify(told, null, 1) + '\n');
}

run(process.argv.slice(2)).catch((error) => {
  console.error(`web/check: FAILED: ${error.message.replace(/\s+/g, ' ')}`);
  process.exit(1);
});

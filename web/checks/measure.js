// node measure.js PAGE P11 BENCH COMMAND..: what bench/README.md says of the page, as a table in Markdown: turns a second beside the
// native program, in each of the browsers (COMMAND); the time to the prompt, memory with eight packs, a key's way.
'use strict';
const fs = require('fs'), path = require('path');
const { execFileSync } = require('child_process');
const { inBrowser } = require('./anywhere.js');

const SCRIPTS = ['branch', 'sort', 'sieve', 'interpreter'];

const turnsOf = (bench, name) => +/^step (\d+)/m.exec(fs.readFileSync(path.join(bench, `${name}.p11`), 'utf8'))[1];

// Milliseconds of the native program for a script, the best of three.
function native(p11, bench, name) {
  const times = [1, 2, 3].map(() => {
    const began = process.hrtime.bigint(), answers = execFileSync(p11, [path.join(bench, `${name}.p11`)]).toString();
    if (answers !== fs.readFileSync(path.join(bench, `${name}.out`), 'utf8')) throw new Error(`./p11 answers ${name} otherwise`);
    return Number(process.hrtime.bigint() - began) / 1e6;
  });
  return Math.min(...times);
}

const nameOf = (agent) => (/Firefox\/[\d.]+/.exec(agent) ?? /Chrome\/\d+/.exec(agent) ?? [agent])[0].replace('/', ' ').replace('Chrome', 'Chromium');
const mebibytes = (bytes) => `${Math.round(bytes / 1048576)} MiB`;

async function run([made, p11, bench, ...commands]) {
  const browsers = [];
  for (const command of commands) {
    const found = await inBrowser(command, { site: path.join(made, 'site'), bench });
    for (const { name, isSame } of found.rates) if (!isSame) throw new Error(`${command} answers ${name} otherwise`);
    browsers.push(found);
  }
  const row = (...cells) => console.log(`| ${cells.join(' | ')} |`);
  row('In the page', './p11', ...browsers.map(({ agent }) => nameOf(agent)));
  console.log('|---'.repeat(browsers.length + 2) + '|');
  for (const name of SCRIPTS) {
    const turns = turnsOf(bench, name), own = native(p11, bench, name), million = (ms) => (turns / ms / 1000).toFixed(1);
    const cells = browsers.map(({ rates }) => {
      const { ms } = rates.find((it) => it.name === name);
      return `${million(ms)} (${(own / ms).toFixed(2)})`;
    });
    row(`\`${name}\`, million turns a second`, million(own), ...cells);
  }
  row('from opening to the prompt', '', ...browsers.map(({ opening }) => `${Math.round(opening)} ms`));
  row('memory with eight packs', '', ...browsers.map(({ packs }) => mebibytes(packs.eight)));
  row('after ten saves of one', '', ...browsers.map(({ packs }) => mebibytes(packs.saved)));
  row('a save with its bytes', '', ...browsers.map(({ packs }) => `${Math.round(packs.save)} ms`));
  const ways = browsers.map(({ keys }) => `${Math.round(keys.median)}, ${Math.round(keys.most)} ms`);
  row('a key to the screen, median and most', '', ...ways);
}

run(process.argv.slice(2)).catch((error) => {
  console.error(`web/measure: ${error.stack}`);
  process.exit(1);
});

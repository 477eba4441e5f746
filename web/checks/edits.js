// node edits.js SITE EDITS COMMAND: the mutation tests of the page. SITE is web/out/site, whose module is taken; EDITS has the files
// NAME.edit, each a change of one file of web/ that a person would see:
//   # steps: EXAM goes on by 2 among the registers          the case that has to refuse it, and what is turned
//   file: page/panel.js
//   old: (isRegister(this.address) ? 1 : 2)                 a text of one line that stands once in the file
//   new: 2
// Each case first passes on the page as it is, in the browser COMMAND; then each edit is made in a copy, and its case has to fail there. An
// edit is bad if it doesn't read, or if the page doesn't open with it. The last line is `N refused, M bad, K not refused`. Exit
// status 1: one is bad or isn't refused, or a case fails on the page as it is.
'use strict';
const fs = require('fs'), os = require('os'), path = require('path');
const { spawnSync } = require('child_process');
process.env.UNTIL ??= '15000';
const { launch } = require('./browser.js');
const { serve } = require('./serve.js');
const front = require('./front.js'), shown = require('./shown.js'), { sight, letters } = require('./seen.js'), { untouched } = require('./work.js');
const { large } = require('./large.js'), { transcript, sent, pastes } = require('./wanted.js');

const WEB = path.dirname(__dirname), PARTS = ['page', 'engine', 'checks'];
const PAGES = { ...front, ...shown, sight, letters, untouched, large, transcript, sent, pastes };
const HEAD = /^# (\w+): \S/;

class Bad extends Error {}

// An edit: the case that has to refuse it, and its file's text before and after.
function read(file) {
  const [head, where, ...pairs] = fs.readFileSync(file, 'utf8').trimEnd().split('\n'), name = HEAD.exec(head)?.[1];
  if (!name || !where?.startsWith('file: ') || pairs.length !== 2) throw new Bad('it is no line `# CASE: ..` with `file: `, `old: ` and `new: `');
  if (name !== 'screen' && !PAGES[name]) throw new Bad(`there is no case ${name}`);
  const [old, now] = pairs.map((line) => line.replace(/^(old|new): ?/, '')), at = where.slice(6), text = fs.readFileSync(path.join(WEB, at), 'utf8');
  if (text.split(old).length !== 2) throw new Bad(`${at} doesn't have this text once: ${old}`);
  return { name, at, text: text.replace(old, () => now) };
}

// A copy of the page's own files, which is served over the site.
class Copy {
  constructor(site) {
    this.site = site;
    this.top = fs.mkdtempSync(path.join(os.tmpdir(), 'p11-edits-'));
    for (const part of PARTS) fs.cpSync(path.join(WEB, part), path.join(this.top, part), { recursive: true });
  }

  // Why a case fails on the copy as it stands; nothing where it passes. Each time the page has another address, so it begins from nothing.
  async fails(page, name) {
    if (name === 'screen') {
      const { status, stderr } = spawnSync(process.execPath, [path.join(this.top, 'checks/screen.js')], { encoding: 'utf8' });
      return status === 0 ? '' : /\n(\w*Error[^\n]*)/.exec(stderr)?.[1] ?? stderr;
    }
    const server = await serve({ '/': this.site, '/page/': path.join(this.top, 'page'), '/engine/': path.join(this.top, 'engine') });
    try {
      const url = `http://127.0.0.1:${server.address().port}/`;
      await page.reopen(url).catch((error) => { throw new Bad(`the page doesn't open: ${error.message}`); });
      return await PAGES[name]({ page, url, native: { folder: this.top }, say: () => {} }).then(() => '', (error) => error.message.split('\n')[0]);
    } finally {
      server.close();
      server.closeAllConnections();
    }
  }

  // The same with an edit, which is taken back.
  async failsWith(page, { name, at, text }) {
    const file = path.join(this.top, at), was = fs.readFileSync(file);
    fs.writeFileSync(file, text);
    try { return await this.fails(page, name); } finally { fs.writeFileSync(file, was); }
  }
}

async function judged(copy, page, file) {
  try {
    const why = await copy.failsWith(page, read(file));
    return why === '' ? ['not refused', ''] : ['refused', why];
  } catch (error) {
    if (error instanceof Bad) return ['bad', error.message];
    throw error;
  }
}

async function all([site, edits, command]) {
  const copy = new Copy(site), page = await launch({ downloads: copy.top, command });
  const counts = { refused: 0, bad: 0, 'not refused': 0 };
  try {
    for (const name of ['screen', ...Object.keys(PAGES).filter((it) => it !== 'Front')]) {
      const why = await copy.fails(page, name);
      if (why !== '') throw new Error(`${name} fails on the page as it is: ${why}`);
    }
    for (const name of fs.readdirSync(edits).filter((it) => it.endsWith('.edit')).sort()) {
      const [verdict, why] = await judged(copy, page, path.join(edits, name));
      counts[verdict]++;
      console.log(`${verdict.padEnd(11)}  ${name.replace('.edit', '')}: ${why}`);
    }
  } finally {
    await page.close();
    fs.rmSync(copy.top, { recursive: true, force: true });
  }
  console.log(Object.entries(counts).map(([verdict, count]) => `${count} ${verdict}`).join(', '));
  return counts.bad + counts['not refused'] === 0 && counts.refused > 0;
}

all(process.argv.slice(2)).then((isGood) => process.exit(isGood ? 0 : 1), (error) => {
  console.error(`web/edits: ${error.message}`);
  process.exit(1);
});

// A session as one file: what the page packs ./p11 plays to the same bytes and state, what examples/pack-up makes plays in the page, one with
// a file outside its folder is refused by both; and a page with a program in it boots that when it is opened.
'use strict';
const assert = require('assert'), fs = require('fs'), path = require('path'), url_ = require('url');
const { execFileSync, spawnSync } = require('child_process');
const { typedIn, listen, heard, stateOf } = require('./compare.js');
const { downloaded, settle } = require('./evening.js');

const TOP = path.join(__dirname, '../..');
const note = (page, text) => page.until(`document.querySelector('#note').textContent.includes(${JSON.stringify(text)})`);
const hellos = (page, count) => page.until(`app.view.text().split('HELLO FROM THE PACK').length - 1 === ${count} && !app.desk.isRunning`);
// Until a session that was dropped is there, and its script is done.
const isOpen = (page, name) => page.until(`app.store.session?.title === '${name}' && !app.desk.isHeld && !app.desk.isRunning
  && app.link.asked.size === 0 && app.view.text().trimEnd().endsWith('p11>')`);
const p11 = (file) => spawnSync(path.join(TOP, 'p11'), [file], { maxBuffer: 1 << 28, encoding: 'latin1' });

async function packed({ page, url, native: { folder }, say }) {
  const file = (name) => path.join(folder, name), packUp = (...words) => execFileSync('examples/pack-up', words, { cwd: TOP });
  await page.goTo(url);
  await page.eval('app.sessions.fresh(28)');
  await listen(page);
  await page.eval("{ heard = ''; document.querySelector('[data-boot=boot]').click(); }");
  await hellos(page, 1);
  await settle(page);
  await page.eval("app.desk.command('deposit 5000 1234')");
  const typed = await heard(page), state = await stateOf(page);
  fs.writeFileSync(file('mine.p11z'), await downloaded(page, folder, '#packed', 'session.p11z'));
  execFileSync('unzip', ['-tqq', file('mine.p11z')]);
  const { stdout } = p11(file('mine.p11z'));
  assert.equal(typedIn(stdout), typed, './p11 types something else');
  assert(stdout.endsWith(state), './p11 comes to another state');
  await page.eval('app.sessions.fresh(28)');
  await page.drop(file('mine.p11z'));
  await isOpen(page, 'mine.p11z');
  assert.equal(await stateOf(page), state, 'the page comes to another state');
  say('a session that the page packs is played by ./p11 to the same bytes and state, and by the page');

  packUp('--memory', '124', 'examples/boot.p11', file('made.p11z'));
  assert.equal(p11(file('made.p11z')).stdout, fs.readFileSync(path.join(TOP, 'examples/boot.out'), 'latin1'));
  await page.drop(file('made.p11z'));
  await isOpen(page, 'made.p11z');
  assert.equal(await page.eval("app.desk.command('examine 757776').then(({ answer }) => answer)"), 'EXAM 757776 000000\n');
  say('what examples/pack-up makes is played by ./p11 and by the page, with the memory that it names');

  const bad = async (name, files, said, told) => {
    const text = await page.eval(`zipOf(${JSON.stringify(files)}.map(({ name, text }) => ({ name, bytes: new TextEncoder().encode(text) }))).then((it) => [...it])`);
    fs.writeFileSync(file(name), Buffer.from(text));
    const { status, stderr } = p11(file(name));
    assert.equal(status, 1, `./p11 takes ${name}`);
    assert(stderr.includes(said), stderr);
    if (!told) return;
    await page.drop(file(name));
    await note(page, told);
  };
  const script = { name: 'session.p11', text: 'regs\n' };
  await bad('up.p11z', [script, { name: '../up', text: '' }], 'it has a file outside its folder', 'up.p11z is no session: it has a file ../up');
  await bad('root.p11z', [script, { name: '/up', text: '' }], 'it has a file outside its folder', 'root.p11z is no session: it has a file /up');
  await bad('none.p11z', [{ name: 'regs.p11', text: '' }], 'it has no session.p11', 'none.p11z is no session: it has no session.p11');
  await bad('saves.p11z', [{ ...script, text: 'mount 0 /dev/null rw\nsave 0 ../up\n' }], 'its script names a file outside its folder');
  assert(!fs.existsSync(file('up')), 'a file was written outside');
  say('one that reaches outside its folder is refused');
}

// A page with a program in it, of web/with and of a page's own button.
async function lesson({ page, made, native: { folder }, say }) {
  const opens = (name) => page.goTo(url_.pathToFileURL(path.join(folder, name)).href);
  const single = path.resolve(made, 'p11.html');
  fs.writeFileSync(path.join(folder, 'one.html'), execFileSync('web/with', ['--title', 'First <lesson>', single, 'examples/boot.p11'], { cwd: TOP, maxBuffer: 1 << 28 }));
  await opens('one.html');
  await hellos(page, 1);
  assert.equal(await page.eval('document.title'), 'First <lesson>');
  assert((await page.eval("document.querySelector('footer').innerText")).endsWith('was put in later.'));
  await page.eval("app.desk.command('deposit 5000 4321')");
  fs.writeFileSync(path.join(folder, 'two.html'), await downloaded(page, folder, '#page', 'lesson.html'));
  await opens('two.html');
  await hellos(page, 1);
  await page.eval("app.desk.command('examine 5000')");
  await page.until("app.view.text().includes('EXAM 005000 004321')");
  say('a page with a program of web/with, and one of the page\'s own button, boot it when they are opened');
}

module.exports = { packed, lesson };

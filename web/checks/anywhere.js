// Any browser, with no debugging protocol: await inBrowser(command, { site, bench }) opens checks/harness.html there and gives what
// it posts. command is that of the browser, as `chromium` or `firefox-esr`.
'use strict';
const fs = require('fs'), os = require('os'), path = require('path');
const { spawn } = require('child_process');
const { isFirefox } = require('./browser.js');
const { SWITCHES } = require('./chromium.js');
const { serve } = require('./serve.js');

function wordsFor(command, home, url) {
  if (isFirefox(command)) return ['--headless', '--no-remote', '--profile', home, url];
  return [...SWITCHES, `--user-data-dir=${home}`, '--window-size=1200,1100', url];
}

async function inBrowser(command, { site, bench, ms = 300000 }) {
  const home = fs.mkdtempSync(path.join(os.tmpdir(), 'p11-any-')), found = {};
  let child, end;
  const ended = new Promise((done, fail) => { end = { done, fail }; });
  const server = await serve({ '/': site, '/tests/': __dirname, '/bench/': bench }, (posted) => {
    if (posted.isDone) end.done(found);
    else if (posted.error) end.fail(new Error(posted.error));
    else if (posted.rate) (found.rates ??= []).push(posted.rate);
    else Object.assign(found, posted);
  });
  const timer = setTimeout(() => end.fail(new Error(`${command} says nothing more: ${JSON.stringify(found)}`)), ms);
  try {
    child = spawn(command, wordsFor(command, home, `http://127.0.0.1:${server.address().port}/tests/harness.html`), { stdio: 'ignore' });
    child.on('error', end.fail);
    return await ended;
  } finally {
    clearTimeout(timer);
    child?.kill();
    server.close();
    server.closeAllConnections();
    await new Promise((done) => { setTimeout(done, 500); });
    fs.rmSync(home, { recursive: true, force: true, maxRetries: 5, retryDelay: 200 });
  }
}

module.exports = { inBrowser };

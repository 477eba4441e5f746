// opened.js FILE: opens the page's file from the disk, in Chromium as a person does: its console answers, a program boots by a
// click, and the record that is downloaded tells which program it is of. Exit status 1: something is otherwise.
'use strict';
const assert = require('assert'), fs = require('fs'), os = require('os'), path = require('path'), url = require('url');
const { open } = require('../web/checks/browser.js'), { downloaded } = require('../web/checks/evening.js');

async function main(file) {
  const folder = fs.mkdtempSync(path.join(os.tmpdir(), 'p11-opened-'));
  const page = await open(`${url.pathToFileURL(path.resolve(file)).href}?boot=monitor`, { downloads: folder });
  try {
    await page.until("document.querySelector('#screen').textContent.includes('MONITOR')", 60000);
    await page.type('\x05');
    await page.type('examine 1000\r');
    await page.until("document.querySelector('#screen').textContent.includes('EXAM 001000')", 60000);
    const record = (await downloaded(page, folder, '#record', 'session.p11')).toString('latin1');
    assert.match(record, /^# p11 [0-9.]+ in a page; proved; sources [0-9a-f]{12}; rattle-kit/, 'the record tells nothing of its program');
  } finally {
    await page.close();
    fs.rmSync(folder, { recursive: true, force: true });
  }
}

main(process.argv[2]).catch((fault) => { console.error(fault.message); process.exit(1); });

// node foot.js PAGE SENTENCE COMMAND..: whether the foot of the page says SENTENCE, as one file from a disk and from a server, in each
// of the browsers (COMMAND). Exit status 1: it says something else.
'use strict';
const assert = require('assert'), os = require('os'), path = require('path');
const { pathToFileURL } = require('url');
const { open } = require('./browser.js');
const { serve } = require('./serve.js');

async function run([made, sentence, ...commands]) {
  const server = await serve({ '/': path.join(made, 'site') });
  const addresses = [pathToFileURL(path.resolve(made, 'p11.html')).href, `http://127.0.0.1:${server.address().port}/`];
  for (const command of commands) {
    const page = await open(addresses[0], { downloads: os.tmpdir(), command });
    try {
      for (const address of addresses) {
        await page.goTo(address);
        assert.equal(await page.eval("document.querySelector('#checked').innerText"), sentence, `${page.product}: ${address}`);
      }
    } finally {
      await page.close();
    }
  }
  server.close();
  server.closeAllConnections();
}

run(process.argv.slice(2)).catch((error) => {
  console.error(`web/check: ${error.stack}`);
  process.exit(1);
});

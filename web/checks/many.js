// node many.js PAGE P11 FROM COUNT WHERE..: so many random sessions (random.js), from this number on, in each of the browsers, or in node
// where WHERE is `node`. Exit status 1: ./p11 comes to something else.
'use strict';
const fs = require('fs'), os = require('os'), path = require('path');
const { open } = require('./browser.js');
const { inNode } = require('./in-node.js');
const { alike, SCRIPTS } = require('./random.js');
const { serve } = require('./serve.js');

async function run([made, p11, from, count, ...places]) {
  const site = path.join(made, 'site'), server = await serve({ '/': site, '/tests/': __dirname });
  const url = `http://127.0.0.1:${server.address().port}/`, folder = fs.mkdtempSync(path.join(os.tmpdir(), 'p11-many-'));
  try {
    for (const place of places) {
      const began = Date.now(), page = place === 'node' ? inNode(site, SCRIPTS) : await open(url, { downloads: folder, command: place });
      try {
        const { typed, packs } = await alike({ page, url, native: { p11: path.resolve(p11), folder }, from: +from, count: +count });
        console.log(`soak/page: ${page.product ?? `node ${process.version}`}: ${count} random sessions from ${from} on, ${typed} typed bytes `
          + `and ${packs} packs, 0 differ, in ${Math.round((Date.now() - began) / 1000)} s`);
      } finally {
        await page.close?.();
      }
    }
  } finally {
    server.close();
    server.closeAllConnections();
    fs.rmSync(folder, { recursive: true, force: true });
  }
}

run(process.argv.slice(2)).catch((error) => {
  console.error(`soak/page: FAILED: ${error.stack}`);
  process.exit(1);
});

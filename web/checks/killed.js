// node killed.js PAGE P11 TIMES COMMAND..: in each of the browsers (COMMAND) the page is loaded again so often behind OK, and so often the
// browser is killed (reloads and kills in back.js). Exit status 1: something is lost.
'use strict';
const fs = require('fs'), os = require('os'), path = require('path');
const { open } = require('./browser.js');
const { kills, reloads } = require('./back.js');
const { serve } = require('./serve.js');

async function run([made, p11, count, ...commands]) {
  const server = await serve({ '/': path.join(made, 'site') }), folder = fs.mkdtempSync(path.join(os.tmpdir(), 'p11-killed-'));
  const url = `http://127.0.0.1:${server.address().port}/`;
  try {
    for (const command of commands) {
      const say = (text) => console.log(`soak/page: ${command}: ${text}`), page = await open(url, { downloads: folder, command });
      try { await reloads({ page, url, count: +count, say }); } finally { await page.close(); }
      await kills({ command, url, native: { p11: path.resolve(p11), folder }, count: +count, say });
    }
  } finally {
    server.close();
    server.closeAllConnections();
    fs.rmSync(folder, { recursive: true, force: true });
  }
}

run(process.argv.slice(2)).catch((error) => {
  console.error(`soak/page: FAILED: ${error.stack}`);
  process.exit(1);
});

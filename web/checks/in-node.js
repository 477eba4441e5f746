// The module in node, for sessions that want no browser: const page = inNode(site, ['random-page.js']); await page.eval('sessions(..)').
'use strict';
const fs = require('fs'), path = require('path'), v8 = require('v8'), vm = require('vm');
const { narrowed } = require('./wasm.js');

const ENGINE = ['calls', 'host', 'pages'].map((name) => `engine/${name}.js`);

// The engine of a site with scripts of this folder. Node 20 has memory of 64 bits only where it is asked for, and no tables of 64 bits.
function inNode(site, scripts) {
  v8.setFlagsFromString('--experimental-wasm-memory64');
  const module = new Uint8Array(narrowed(fs.readFileSync(path.join(site, 'p11.wasm')))).buffer;
  const sources = [...ENGINE.map((name) => path.join(site, name)), ...scripts.map((name) => path.join(__dirname, name))];
  const context = vm.createContext({ crypto, structuredClone, fetch: async () => ({ arrayBuffer: async () => module }) });
  vm.runInContext(sources.map((name) => fs.readFileSync(name, 'utf8')).join(''), context);
  return { eval: async (expression) => vm.runInContext(expression, context), navigate: async () => {}, until: async () => {} };
}

module.exports = { inNode };

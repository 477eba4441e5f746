// A server of static files on this machine, for the check alone: const server = await serve({ '/': folder }); server.address().port
'use strict';
const fs = require('fs'), http = require('http'), path = require('path');

const TYPES = { '.html': 'text/html', '.js': 'text/javascript', '.css': 'text/css', '.wasm': 'application/wasm', '.json': 'application/json' };

// Each name of the table is the beginning of addresses, and has the folder from which they are served; report takes what
// is posted.
function serve(table, report = () => {}) {
  const server = http.createServer((request, answer) => {
    if (request.method === 'POST') { take(request, answer, report); return; }
    const { pathname } = new URL(request.url, 'http://here');
    const begin = Object.keys(table).sort((a, b) => b.length - a.length).find((it) => pathname.startsWith(it));
    const folder = path.resolve(table[begin]), name = path.join(folder, decodeURIComponent(pathname.slice(begin.length)) || 'index.html');
    if (!name.startsWith(folder) || !fs.existsSync(name)) { answer.writeHead(404); answer.end(); return; }
    answer.writeHead(200, { 'content-type': TYPES[path.extname(name)] ?? 'application/octet-stream' });
    fs.createReadStream(name).pipe(answer);
  });
  return new Promise((done) => { server.listen(0, '127.0.0.1', () => done(server)); });
}

function take(request, answer, report) {
  const parts = [];
  request.on('data', (part) => parts.push(part));
  request.on('end', () => { answer.end(); report(JSON.parse(Buffer.concat(parts).toString())); });
}

module.exports = { serve };

// A record of the page beside the native program: play(record, { p11, folder }), agree(record, typed, state, native).
'use strict';
const assert = require('assert'), fs = require('fs'), path = require('path');
const { execFileSync } = require('child_process');

// All that shows of a machine: registers, devices and its 28 thousand words of memory.
const STATE = ['regs', 'device', ...Array.from({ length: 56 }, (_, n) => `examine ${(n * 1024).toString(8)} 512`)];

// The bytes that were typed, by the lines TTY of answers.
function typedIn(answers) {
  const text = [...answers.matchAll(/^TTY (.*)$/gm)].map(([, shown]) => shown).join('');
  return text.replace(/\\([0-7]{3})/g, (_, digits) => String.fromCharCode(parseInt(digits, 8)));
}

// A record without its first line, which has to be the remark that tells which program it is of.
function withoutRemark(record) {
  const [, lines] = /^# p11 [0-9.]+ in a page; (?:not )?proved; sources [0-9a-f]{12}; .+\n([^]*)$/.exec(record) ?? [];
  assert(lines !== undefined && !lines.startsWith('#'), `the record doesn't tell once which program it is of: ${record.slice(0, 200)}`);
  return lines;
}

// What ./p11 answers to a script, in a folder that has the script's files.
function play(script, { p11, folder }) {
  const file = path.join(folder, 'played.p11');
  fs.writeFileSync(file, script, 'latin1');
  return execFileSync(p11, [file], { cwd: folder, maxBuffer: 1 << 28 }).toString('latin1');
}

// Hears what the machine in the page types, from now on.
const listen = (page) => page.eval(`{ globalThis.heard ??= ''; const typed = App.prototype.typed;
  app.link.on('typed', (it) => { heard += String.fromCharCode(...it.bytes); typed.call(app, it.bytes); }); }`);
const heard = (page) => page.eval('globalThis.heard');

// What the page's machine shows; none of these lines changes it, but for the record.
async function stateOf(page) {
  return page.eval(`(async () => {
    let all = '';
    for (const line of ${JSON.stringify(STATE)}) all += (await app.desk.command(line, true)).answer;
    return all;
  })()`);
}

// Whether ./p11 comes from the record to the same typed bytes and the same state. Throws where it doesn't.
function agree(record, typed, state, native) {
  const answers = play(record + STATE.join('\n') + '\n', native);
  assert.equal(typedIn(answers), typed, 'the typed bytes differ');
  assert(answers.endsWith(state), 'registers, devices or memory differ');
}

module.exports = { STATE, play, typedIn, withoutRemark, listen, heard, stateOf, agree };

// A session as one file, NAME.p11z: a ZIP archive of its record, session.p11, which begins with a remark on the memory, and of its packs
// and tapes under the names that the record has for them. `./p11 NAME.p11z` plays it too.
//   await packedOf({ record, kwords, talks, files }); await unpacked(bytes)   { script, kwords, talks, files }; throws where it is none
// Where it talks, the machine's terminal comes behind the script: at a last line `continue`, and at a last remark `# talk`.
'use strict';

const LINK = 'p11z=', MOST_LINK = 8192, RECORD = 'session.p11', TALKS = /^(?:continue \d+|# talk)\s*$(?![^])/m;

function packedOf({ record, kwords, talks, files }) {
  const text = `# memory ${kwords}\n# ${globalThis.P11_MADE}\n${record}${talks ? '# talk\n' : ''}`;
  return zipOf([{ name: RECORD, bytes: Uint8Array.from(text, (c) => c.charCodeAt(0)) }, ...files.filter(({ name }) => isInside(name))]);
}

// Whether a name stays in the folder in which the archive is unpacked.
const isInside = (name) => /^[!-~]+$/.test(name) && !name.startsWith('/') && !name.split('/').includes('..');

async function unpacked(bytes) {
  const files = await filesIn(bytes), outside = files.find(({ name }) => !isInside(name)), record = files.find(({ name }) => name === RECORD);
  if (outside) throw new Error(`it has a file ${outside.name}`);
  if (!record) throw new Error(`it has no ${RECORD}`);
  const script = new TextDecoder('latin1').decode(record.bytes), kwords = +(/^# memory (\d+)$/m.exec(script)?.[1] ?? 28);
  if (kwords < 4 || kwords > 124 || kwords % 4 !== 0) throw new Error(`there is no machine of ${kwords} thousand words`);
  return { script: script.replace(TALKS, ''), kwords, talks: TALKS.test(script), files: files.filter((it) => it !== record) };
}

// A session in an address: base64 with - and _, which need no escape there.
const base64Of = (bytes) => btoa(Array.from(bytes, (byte) => String.fromCharCode(byte)).join(''));
const linkText = (bytes) => base64Of(bytes).replaceAll('+', '-').replaceAll('/', '_').replace(/=+$/, '');
const bytesOfLink = (text) => Uint8Array.from(atob(text.replaceAll('-', '+').replaceAll('_', '/')), (c) => c.charCodeAt(0));

// The program that was put into this page (web/with, or the button of another page), which it boots; null where none was.
const lessonIn = () => {
  const text = document.querySelector('#lesson')?.textContent;
  return text ? Uint8Array.from(atob(text.trim()), (c) => c.charCodeAt(0)) : null;
};

// This page with a program in it: what stands in front of the first script is as it was when the page was opened.
function pageWith(page, packed) {
  let text = '';
  for (let at = 0; at < packed.length; at += 8190) text += btoa(String.fromCharCode(...packed.subarray(at, at + 8190)));
  const without = page.replace(/<script type="text\/plain" id="lesson">[^<]*<\/script>\n?/, '');
  return without.replace('<script>', () => `<script type="text/plain" id="lesson">${text}</script>\n<script>`);
}

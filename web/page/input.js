// Keys, pasting and dropping: what the browser gives, handed to the console, the machine or the drives.
//   listen(app)
'use strict';

function listen(app) {
  const keys = document.querySelector('#keys'), screen = document.querySelector('#screen');
  const isTerminal = (target) => target === keys || target === document.body;
  const control = document.querySelector('#control');
  const hold = (isHeld) => control.setAttribute('aria-pressed', String(isHeld)), isHeld = () => control.ariaPressed === 'true';
  const codesOf = (event) => keysOf(event, app.desk.isRunning ? app.screen : {});   // the console has the keys of a VT100
  const feed = (codes) => {
    app.view.follow();
    const [first, ...more] = codes;
    if (first === undefined) return;
    app.desk.feed(isHeld() ? [...controlKey(String.fromCharCode(first)) ?? [first], ...more] : codes);
    hold(false);
  };

  // Text that is typed, and text that is pasted: what has no key here is told, and pasted text waits until it is known what to do without.
  const without = (text) => {
    const keyless = keylessIn(text);
    if (keyless.length > 0) app.screen.bells++;
    return keyless.length > 0 ? `This keyboard has no ${keyless.slice(0, 8).join(' ')}` : '';
  };
  const typed = (text) => {
    const told = without(text);
    if (told) app.note(`${told}.`); else feed(keysOfText(text));
  };
  const pasted = async (text) => {
    const told = without(text);
    if (told && !await app.ask(`${told}: nothing of what was pasted is typed yet.`, 'Type the rest')) return;
    // at the prompt the key Tab completes a word, and a tab in a text is white space
    feed(keysOfText((app.desk.isRunning ? text : text.replaceAll('\t', ' ')).replace(KEYLESS, '')));
  };

  addEventListener('keydown', (event) => {
    if (event.key === 'F6') { event.preventDefault(); nextPart(event.shiftKey ? -1 : 1); return; }
    if (!isTerminal(event.target) || event.isComposing || isBrowsers(event)) return;
    const codes = codesOf(event);
    if (!codes) return;
    event.preventDefault();
    feed(codes);
  });

  // A keyboard on the glass gives text and no keys, and composed text at its end; a blank stands in the field, so that it can be
  // taken back.
  keys.value = ' ';
  keys.addEventListener('compositionend', (event) => {
    typed(event.data);
    keys.value = ' ';
  });
  keys.addEventListener('input', (event) => {
    if (event.isComposing || /Composition/.test(event.inputType)) return;
    if (event.inputType === 'deleteContentBackward') feed([127]);
    else typed(event.data ?? (event.inputType === 'insertLineBreak' ? '\n' : ''));
    keys.value = ' ';
  });

  addEventListener('paste', (event) => {
    if (!isTerminal(event.target)) return;
    event.preventDefault();
    pasted(event.clipboardData.getData('text'));
  });

  screen.addEventListener('mouseup', () => { if (getSelection().isCollapsed) app.focus(); });
  for (const button of document.querySelectorAll('[data-code]')) {
    button.onclick = () => { feed([+button.dataset.code]); app.focus(); };
  }
  for (const button of document.querySelectorAll('[data-press]')) {
    const key = button.dataset.press;
    button.onclick = () => { feed(codesOf({ key })); app.focus(); };
  }
  control.onclick = () => { hold(!isHeld()); app.focus(); };
  listenForFiles(app);
}

// What stays the browser's: copying what is selected, and pasting.
function isBrowsers(event) {
  if (!event.ctrlKey && !event.metaKey) return false;
  const key = event.key.toLowerCase();
  return key === 'v' || ((key === 'c' || key === 'insert') && !getSelection().isCollapsed);
}

// The parts of the page, one after another.
function nextPart(step) {
  const parts = [...document.querySelectorAll('[data-part]')];
  const now = parts.findIndex((part) => part.contains(document.activeElement));
  const part = parts[(now + step + parts.length) % parts.length];
  (part.querySelector('#keys') ?? part.querySelector('[tabindex="0"], button:not([hidden]), select') ?? part).focus();
}

function listenForFiles(app) {
  const picked = document.querySelector('#picked');
  let drive;
  app.pick = (number) => {
    drive = number;
    picked.click();
  };
  picked.onchange = async () => {
    const files = [...picked.files];
    picked.value = '';
    for (const file of files) await app.sessions.take(file, drive);
  };
  const rowOf = (event) => (event.target instanceof Element ? event.target.closest('li[data-drive]') : null);
  const mark = (row) => { for (const it of document.querySelectorAll('li[data-drive]')) it.classList.toggle('over', it === row); };
  addEventListener('dragover', (event) => {
    event.preventDefault();
    document.body.classList.add('drop');
    mark(rowOf(event));
  });
  addEventListener('dragleave', () => { document.body.classList.remove('drop'); mark(null); });
  addEventListener('drop', async (event) => {
    event.preventDefault();
    document.body.classList.remove('drop');
    mark(null);
    const row = rowOf(event), to = row ? +row.dataset.drive : undefined;
    for (const file of [...event.dataTransfer.files]) await app.sessions.take(file, to);
  });
}

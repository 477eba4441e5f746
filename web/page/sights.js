// What is chosen of how the page looks: its face, the size of the letters, whether the panel is folded, how many bits of a byte are shown;
// the browser keeps it. And the terminal on the full screen.
//   sights(app)
'use strict';

const LETTERS = [10, 12, 14, 16, 18, 20, 24, 28, 32], LOW = '(max-height: 780px)';

// What was chosen, or nothing where the browser keeps nothing.
const chosen = (name) => { try { return localStorage.getItem(name) ?? ''; } catch { return ''; } };
const choose = (name, value) => { try { localStorage.setItem(name, value); } catch { /* then it isn't kept */ } };

function sights(app) {
  $('#theme').onclick = () => setFace(nextFace());
  setFace(chosen('face'));
  $('#letters').append(...LETTERS.map((size) => new Option(`${size} pixels`, size)));
  const choice = (id, act) => {
    const box = $(`#${id}`), now = () => { act(box.value); choose(id, box.value); };
    if ([...box.options].some(({ value }) => value === chosen(id))) box.value = chosen(id);
    box.onchange = now;
    now();
  };
  choice('letters', (size) => setLetters(app, size));
  choice('bits', (bits) => { app.screen.isWide = bits === '8'; });
  foldPanel();
  const { whole, terminal } = Object.fromEntries(['whole', 'terminal'].map((id) => [id, $(`#${id}`)]));
  whole.hidden = !document.fullscreenEnabled;
  whole.onclick = () => (document.fullscreenElement ? document.exitFullscreen() : terminal.requestFullscreen());
  document.onfullscreenchange = () => {
    whole.setAttribute('aria-pressed', String(document.fullscreenElement === terminal));
    app.view.follow();
    app.focus();
  };
}

function setLetters(app, size) {
  const { style } = document.documentElement;
  if (size) style.setProperty('--letters', `${size}px`); else style.removeProperty('--letters');
  if (app.view.isFollowing) app.view.toEnd();
}

// The panel is folded in a low window, until that is chosen otherwise.
function foldPanel() {
  const front = $('#front'), low = matchMedia(LOW), fold = () => { front.open = chosen('panel') ? chosen('panel') === 'open' : !low.matches; };
  low.onchange = fold;
  fold();
  front.querySelector('summary').onclick = () => choose('panel', front.open ? 'folded' : 'open');
}

// The face is as the system has it, or the one that was chosen.
function nextFace() {
  const face = document.documentElement.dataset.theme ?? (matchMedia('(prefers-color-scheme: dark)').matches ? 'dark' : 'light');
  return face === 'dark' ? 'light' : 'dark';
}
function setFace(face) {
  if (!face) return;
  document.documentElement.dataset.theme = face;
  choose('face', face);
}

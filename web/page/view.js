// The screen in the page: what scrolled off it in pieces above, and its lines below, with the cursor.
//   const view = new View(screen, element); view.paint();   once a frame
'use strict';

const PIECE_LINES = 200, MOST_PIECES = 25, MARGIN = 6;
const CLASSES = ['', 'bold', 'underline', 'bold underline', 'reverse', 'bold reverse', 'underline reverse', 'bold underline reverse'];

class View {
  constructor(screen, element) {
    Object.assign(this, { screen, element, shown: '', isFollowing: true, isSeen: false, pageTop: 0 });
    this.back = element.querySelector('.back');
    this.now = element.querySelector('.now');
    this.spoken = element.querySelector('.spoken');
    this.unspoken = '';
    this.lines = 0;
    this.top = 0;
    this.width = element.clientWidth;
    element.addEventListener('scroll', () => {
      const { scrollTop, clientHeight, scrollHeight, clientWidth } = element;
      if (clientWidth !== this.width) {   // the page is laid out anew, and nobody has scrolled
        this.width = clientWidth;
        if (this.isFollowing) this.toEnd();
      } else if (scrollTop + clientHeight > scrollHeight - 20) this.isFollowing = true;
      else if (scrollTop < this.top - 1) this.isFollowing = false;
      this.top = scrollTop;
    });
    new ResizeObserver(() => { if (this.isFollowing) this.toEnd(); }).observe(element);
    // In the window the cursor is kept in sight behind a key, until one goes to another part or scrolls there.
    addEventListener('focusin', ({ target }) => { if (!element.contains(target)) this.isSeen = false; });
    addEventListener('scroll', () => { if (Math.abs(scrollY - this.pageTop) > 1) this.isSeen = false; });
    for (const it of [globalThis, visualViewport]) it.addEventListener('resize', () => this.toSight());
  }

  // Follows what comes, also where one has scrolled back.
  follow() {
    this.isFollowing = this.isSeen = true;
    this.toSight();
  }

  paint() {
    const gone = this.screen.takeGone();
    for (const line of gone) this.keep(line);
    const { x, y, showsCursor, cells } = this.screen;
    const mark = cells.map(flat).join('\n') + `|${x},${y},${showsCursor}`;
    if (gone.length === 0 && mark === this.shown) return;
    this.shown = mark;
    const last = Math.max(y, cells.findLastIndex((row) => flat(row).trimEnd() !== ''));
    this.now.replaceChildren(...cells.slice(0, last + 1).map((row, at) => this.line(row, at === y && showsCursor ? x : -1)));
    if (this.isFollowing) this.toEnd();
    this.toSight();
  }

  // Scrolls the window as far as the screen needs, or where the window is too low for it the cursor.
  toSight() {
    const cursor = this.now.querySelector('.cursor');
    if (!this.isSeen || !cursor) return;
    const height = visualViewport.height - 2 * MARGIN, whole = this.element.getBoundingClientRect();
    const { top, bottom } = whole.height <= height ? whole : cursor.getBoundingClientRect();
    const by = Math.min(top - MARGIN, Math.max(0, bottom - MARGIN - height));
    if (by !== 0) scrollBy(0, by);
    this.pageTop = scrollY;
  }

  // What stands in a line: runs of the same style, and the cursor.
  line(row, cursor) {
    const line = document.createElement('div');
    const end = Math.max(cursor + 1, row.findLastIndex((cell) => cell !== ' ') + 1);
    let text = '', style = 0;
    const close = () => {
      if (text !== '') line.append(style === 0 ? text : piece(text, CLASSES[style]));
      text = '';
    };
    for (let x = 0; x < end; x++) {
      const cell = row[x] ?? ' ', shown = cell.shown ?? cell;
      if (x === cursor) { close(); line.append(piece(shown, 'cursor')); continue; }
      if ((cell.style ?? 0) !== style) { close(); style = cell.style ?? 0; }
      text += shown;
    }
    close();
    if (end === 0) line.append('\n');
    return line;
  }

  // A line that scrolled off.
  keep(row) {
    if (this.lines % PIECE_LINES === 0) {
      this.back.append(document.createElement('div'));
      if (this.back.childElementCount > MOST_PIECES) this.back.firstChild.remove();
    }
    this.lines++;
    const text = flat(row).trimEnd() + '\n';
    this.back.lastChild.append(text);
  }

  // The cursor stays in sight, at the bottom and from side to side.
  toEnd() {
    this.element.scrollTop = this.element.scrollHeight;
    const cursor = this.now.querySelector('.cursor');
    if (!cursor) return;
    const { left, right } = cursor.getBoundingClientRect(), box = this.element.getBoundingClientRect();
    if (right > box.right) this.element.scrollLeft += right - box.right + 20;
    else if (left < box.left) this.element.scrollLeft -= box.left - left + 20;
  }

  // What came, for a screen reader: whole lines, a few at a time.
  speak(text) {
    this.unspoken += text.replace(/\x1b\[[0-9;?]*[A-Za-z]|[^ -~\n]/g, '');
    const lines = this.unspoken.split('\n');
    this.unspoken = lines.pop().slice(-200);
    const said = lines.filter((line) => line.trim() !== '').slice(-8).join('\n');
    if (said !== '') this.spoken.textContent = said;
  }

  // All of it, also what scrolled off since it was painted.
  text() { return this.back.textContent + [...this.screen.gone, ...this.screen.cells].map((row) => flat(row).trimEnd()).join('\n'); }
}

const flat = (row) => row.map((cell) => cell.shown ?? cell).join('');
function piece(text, className) {
  const span = document.createElement('span');
  span.className = className;
  span.textContent = text;
  return span;
}

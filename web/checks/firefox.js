// Firefox over WebDriver BiDi: const page = await openFirefox(command, { downloads }); see page.js. Wants a WebSocket, which
// node has from 22 on, and Debian's package node-ws for earlier ones.
'use strict';
const fs = require('fs'), os = require('os'), path = require('path');
const { spawn } = require('child_process');
const { Page } = require('./page.js');

const SIZE = [1280, 1000];
const CODES = {
  Enter: '\ue007', Backspace: '\ue003', Tab: '\ue004', Escape: '\ue00c', End: '\ue010', ArrowLeft: '\ue012', ArrowUp: '\ue013', ArrowRight: '\ue014',
  ArrowDown: '\ue015', F1: '\ue031', F6: '\ue036',
};
const SHIFT = '\ue008', CONTROL = '\ue009';
const EVENTS = { move: 'pointerMove', down: 'pointerDown', up: 'pointerUp' };

// Files are saved unasked, a page may read the clipboard without a question, and behind a kill no tab comes back.
const preferences = (downloads) => Object.entries({
  'browser.download.folderList': 2,
  'browser.download.dir': path.resolve(downloads),
  'browser.download.alwaysOpenPanel': false,
  'browser.helperApps.neverAsk.saveToDisk': 'application/octet-stream',
  'dom.events.testing.asyncClipboard': true,
  'browser.sessionstore.resume_from_crash': false,
  'toolkit.startup.max_resumed_crashes': -1,
}).map(([name, value]) => `user_pref(${JSON.stringify(name)}, ${JSON.stringify(value)});\n`).join('');

class FirefoxPage extends Page {
  constructor(child, home, socket) {
    super();
    Object.assign(this, { child, home, socket, sent: { count: 0 }, waiting: new Map() });
    socket.onmessage = ({ data }) => this.take(JSON.parse(data));
  }

  take({ type, id, method, params, error, message, result }) {
    if (type === 'event') {
      if (method === 'log.entryAdded' && params.level === 'error') this.errors.push(params.text);
      return;
    }
    const { done, fail } = this.waiting.get(id);
    this.waiting.delete(id);
    if (type === 'error') fail(new Error(`${error}: ${message}`)); else done(result);
  }

  send(method, params = {}) {
    return new Promise((done, fail) => {
      this.waiting.set(++this.sent.count, { done, fail });
      this.socket.send(JSON.stringify({ id: this.sent.count, method, params }));
    });
  }

  async replace() {
    const was = this.context;
    ({ context: this.context } = await this.send('browsingContext.create', { type: 'tab' }));
    if (was) await this.send('browsingContext.close', { context: was });
    await this.resize();
  }

  async tab() {
    const other = Object.assign(Object.create(this), { context: undefined });
    await other.replace();
    return other;
  }

  leave() { return this.send('browsingContext.close', { context: this.context }); }

  navigate(url) { return this.send('browsingContext.navigate', { context: this.context, url, wait: 'none' }); }

  // The value comes as JSON, so that it is the same as Chromium's. The page's policy allows no eval of its own.
  async eval(expression) {
    const more = { target: { context: this.context }, awaitPromise: true };
    const found = await this.script('script.evaluate', { expression, resultOwnership: 'root', ...more });
    if (!found.handle) return found.value;
    const { value } = await this.script('script.callFunction', { functionDeclaration: '(it) => JSON.stringify(it)', arguments: [found], ...more });
    return value === undefined ? undefined : JSON.parse(value);
  }

  async script(method, params) {
    const { type, result, exceptionDetails } = await this.send(method, params);
    if (type === 'exception') throw new Error(exceptionDetails.text);
    return result;
  }

  // WebDriver has no input method: the page gets the events of one.
  compose(text) {
    return this.eval(`{ const keys = document.querySelector('#keys'), told = { data: ${JSON.stringify(text)}, bubbles: true };
      keys.dispatchEvent(new CompositionEvent('compositionstart', { bubbles: true }));
      keys.dispatchEvent(new InputEvent('input', { ...told, inputType: 'insertCompositionText', isComposing: true }));
      keys.dispatchEvent(new CompositionEvent('compositionend', told));
      keys.dispatchEvent(new InputEvent('input', { ...told, inputType: 'insertCompositionText' })); 0; }`);
  }

  press(strokes) {
    const actions = strokes.flatMap(({ key, ctrl, shift }) => {
      const held = [...(ctrl ? [CONTROL] : []), ...(shift ? [SHIFT] : [])], all = [...held, CODES[key] ?? key];
      return [...all.map((value) => ({ type: 'keyDown', value })), ...[...all].reverse().map((value) => ({ type: 'keyUp', value }))];
    });
    return this.perform({ type: 'key', id: 'keyboard', actions });
  }

  mouse(steps) {
    const actions = steps.map(({ at, x, y }) => ({ type: EVENTS[at], ...(at === 'move' ? { x, y } : { button: 0 }) }));
    return this.perform({ type: 'pointer', id: 'mouse', parameters: { pointerType: 'mouse' }, actions });
  }

  perform(actions) { return this.send('input.performActions', { context: this.context, actions: [actions] }); }

  // WebDriver drops no files: the page gets the event that a drop is.
  async drop(file, selector = '#screen') {
    const bytes = fs.readFileSync(file).toString('base64'), name = JSON.stringify(path.basename(file));
    await this.eval(`{ const dataTransfer = new DataTransfer();
      dataTransfer.items.add(new File([Uint8Array.from(atob('${bytes}'), (c) => c.charCodeAt(0))], ${name}));
      const drop = new DragEvent('drop', { dataTransfer, bubbles: true, cancelable: true });
      document.querySelector(${JSON.stringify(selector)}).dispatchEvent(drop); }`);
  }

  resize(width = SIZE[0], height = SIZE[1]) {
    return this.send('browsingContext.setViewport', { context: this.context, viewport: { width, height } });
  }

  async capture() {
    const { data } = await this.send('browsingContext.captureScreenshot', { context: this.context, origin: 'document' });
    return Buffer.from(data, 'base64');
  }

  async before(source) {
    const { script } = await this.send('script.addPreloadScript', { functionDeclaration: `() => { ${source} }` });
    return () => this.send('script.removePreloadScript', { script });
  }

  // WebDriver tells no names, but finds what has one.
  async named(roles, names) {
    const find = async (value) => (await this.send('browsingContext.locateNodes',
      { context: this.context, locator: { type: 'accessibility', value } })).nodes.length;
    const told = { nameless: [], lacking: [], count: 0 };
    for (const role of roles) {
      told.count += await find({ role });
      if (await find({ role, name: '' }) > 0) told.nameless.push(role);
    }
    for (const name of names) if (await find({ name }) === 0) told.lacking.push(name);
    return told;
  }

  // Of a browser whose profile is kept: its processes are a group of their own.
  async kill() {
    process.kill(-this.child.pid, 'SIGKILL');
    if (this.child.signalCode === null) await new Promise((done) => { this.child.once('exit', done); });
  }

  async close() {
    await this.send('browser.close').catch(() => {});
    if (this.child.exitCode === null) await new Promise((done) => { this.child.once('exit', done); });
    fs.rmSync(this.home, { recursive: true, force: true, maxRetries: 5 });
  }
}

// The address at which Firefox listens, which it tells on standard error.
function addressOf(child) {
  let told = '';
  return new Promise((done, fail) => {
    child.stderr.on('data', (chunk) => {
      told += chunk;
      const found = /WebDriver BiDi listening on (ws:\S+)/.exec(told);
      if (found) done(found[1]);
    });
    child.on('exit', () => fail(new Error(`Firefox has ended: ${told.slice(-1000)}`)));
  });
}

async function openFirefox(command, { downloads, home: kept }) {
  const home = kept ?? fs.mkdtempSync(path.join(os.tmpdir(), 'p11-browser-'));
  fs.writeFileSync(path.join(home, 'user.js'), preferences(downloads));
  const words = ['--headless', '--no-remote', '--profile', home, '--remote-debugging-port', '0', 'about:blank'];
  const child = spawn(command, words, { stdio: ['ignore', 'ignore', 'pipe'], detached: kept !== undefined });
  const Socket = globalThis.WebSocket ?? require('ws'), socket = new Socket(`${await addressOf(child)}/session`);
  const page = new FirefoxPage(child, home, socket);
  await new Promise((done, fail) => Object.assign(socket, { onopen: done, onerror: fail }));
  const { capabilities } = await page.send('session.new', { capabilities: {} });
  page.product = `Firefox ${capabilities.browserVersion}`;
  await page.send('session.subscribe', { events: ['log.entryAdded'] });
  await page.replace();
  return page;
}

module.exports = { openFirefox };

// Chromium over its debugging pipe: const page = await openChromium(command, { downloads }); see page.js. Wants node alone.
'use strict';
const fs = require('fs'), os = require('os'), path = require('path');
const { spawn } = require('child_process');
const { Page } = require('./page.js');

const SWITCHES = ['--headless=new', '--no-sandbox', '--disable-gpu', '--no-first-run', '--disable-dev-shm-usage'];
const SIZE = [1280, 1000];
const CODES = { Enter: 13, Backspace: 8, Tab: 9, Escape: 27, End: 35, ArrowLeft: 37, ArrowUp: 38, ArrowRight: 39, ArrowDown: 40, F1: 112, F6: 117 };
const EDITS = { c: 'copy', v: 'paste' };
const EVENTS = { move: 'mouseMoved', down: 'mousePressed', up: 'mouseReleased' };

const said = (details) => details.exception?.description ?? details.text;

class ChromiumPage extends Page {
  constructor(child, home) {
    super();
    Object.assign(this, { child, home, sent: { count: 0 }, waiting: new Map(), isPressed: false });
    let rest = '';
    child.stdio[4].on('data', (chunk) => {
      const parts = (rest + chunk).split('\0');
      rest = parts.pop();
      for (const part of parts) this.take(JSON.parse(part));
    });
  }

  take({ id, method, params, error, result }) {
    if (method === 'Runtime.exceptionThrown') this.errors.push(said(params.exceptionDetails));
    if (method === 'Runtime.consoleAPICalled' && params.type === 'error') this.errors.push(params.args.map((it) => it.value).join(' '));
    if (!id) return;
    const { done, fail } = this.waiting.get(id);
    this.waiting.delete(id);
    if (error) fail(new Error(`${error.message} ${error.data ?? ''}`)); else done(result);
  }

  send(method, params = {}) {
    return new Promise((done, fail) => {
      this.waiting.set(++this.sent.count, { done, fail });
      this.child.stdio[3].write(JSON.stringify({ id: this.sent.count, method, params, sessionId: this.sessionId }) + '\0');
    });
  }

  async attach(targetId) {
    this.targetId = targetId;
    this.sessionId = undefined;
    ({ sessionId: this.sessionId } = await this.send('Target.attachToTarget', { targetId, flatten: true }));
    await this.send('Runtime.enable');
    await this.send('Page.enable');
  }

  async replace() {
    const { targetId } = this;
    this.sessionId = undefined;
    const { targetId: next } = await this.send('Target.createTarget', { url: 'about:blank' });
    if (targetId) await this.send('Target.closeTarget', { targetId });
    await this.attach(next);
  }

  async tab() {
    const other = Object.assign(Object.create(this), { targetId: undefined });
    await other.replace();
    return other;
  }

  async leave() {
    const { targetId } = this;
    this.sessionId = undefined;
    await this.send('Target.closeTarget', { targetId });
  }

  navigate(url) { return this.send('Page.navigate', { url }); }

  async eval(expression) {
    const { result, exceptionDetails } = await this.send('Runtime.evaluate', { expression, awaitPromise: true, returnByValue: true });
    if (exceptionDetails) throw new Error(said(exceptionDetails));
    return result.value;
  }

  async press(strokes) {
    for (const { key, ctrl, shift } of strokes) {
      const windowsVirtualKeyCode = CODES[key] ?? key.toUpperCase().charCodeAt(0), modifiers = (ctrl ? 2 : 0) + (shift ? 8 : 0);
      const text = key.length === 1 && !ctrl ? key : undefined, commands = ctrl && EDITS[key] ? [EDITS[key]] : undefined;
      await this.send('Input.dispatchKeyEvent', { type: 'keyDown', key, windowsVirtualKeyCode, modifiers, text, commands });
      await this.send('Input.dispatchKeyEvent', { type: 'keyUp', key, windowsVirtualKeyCode, modifiers });
    }
  }

  // Text of an input method: letter by letter, then the whole.
  async compose(text) {
    for (let end = 1; end <= text.length; end++) {
      await this.send('Input.imeSetComposition', { text: text.slice(0, end), selectionStart: end, selectionEnd: end });
    }
    await this.send('Input.insertText', { text });
  }

  async mouse(steps) {
    for (const { at, x, y } of steps) {
      const isMove = at === 'move', held = { button: isMove && !this.isPressed ? 'none' : 'left', buttons: this.isPressed ? 1 : 0 };
      await this.send('Input.dispatchMouseEvent', { type: EVENTS[at], x, y, clickCount: isMove ? 0 : 1, ...held });
      if (!isMove) this.isPressed = at === 'down';
    }
  }

  async drop(file, selector = '#screen') {
    const at = await this.eval(`(() => { const it = document.querySelector(${JSON.stringify(selector)}); it.scrollIntoView({ block: 'nearest' });
      const { x, y } = it.getBoundingClientRect(); return { x: x + 10, y: y + 10 }; })()`);
    const data = { items: [], files: [path.resolve(file)], dragOperationsMask: 1 };
    for (const type of ['dragEnter', 'dragOver', 'drop']) await this.send('Input.dispatchDragEvent', { type, ...at, data });
  }

  resize(width, height) {
    if (!width) return this.send('Emulation.clearDeviceMetricsOverride');
    return this.send('Emulation.setDeviceMetricsOverride', { width, height, deviceScaleFactor: 1, mobile: width < 500 });
  }

  async capture() {
    await this.send('Emulation.setScrollbarsHidden', { hidden: true });
    const { data } = await this.send('Page.captureScreenshot', { format: 'png', captureBeyondViewport: true });
    return Buffer.from(data, 'base64');
  }

  async before(source) {
    const { identifier } = await this.send('Page.addScriptToEvaluateOnNewDocument', { source });
    return () => this.send('Page.removeScriptToEvaluateOnNewDocument', { identifier });
  }

  async named(roles, names) {
    await this.send('Accessibility.enable');
    const { nodes } = await this.send('Accessibility.getFullAXTree');
    await this.send('Accessibility.disable');
    const controls = nodes.filter((node) => !node.ignored && roles.includes(node.role?.value));
    const has = new Set(controls.map((node) => node.name?.value));
    return {
      nameless: controls.filter((node) => !node.name?.value).map((node) => node.role.value),
      lacking: names.filter((name) => !has.has(name)), count: controls.length,
    };
  }

  // Of a browser whose profile is kept: its processes are a group of their own.
  async kill() {
    process.kill(-this.child.pid, 'SIGKILL');
    if (this.child.signalCode === null) await new Promise((done) => { this.child.once('exit', done); });
  }

  async close() {
    this.sessionId = undefined;
    await this.send('Browser.close').catch(() => {});
    if (this.child.exitCode === null) await new Promise((done) => { this.child.once('exit', done); });
    fs.rmSync(this.home, { recursive: true, force: true, maxRetries: 5 });
  }
}

async function openChromium(command, { downloads, home: kept }) {
  const home = kept ?? fs.mkdtempSync(path.join(os.tmpdir(), 'p11-browser-'));
  const words = [...SWITCHES, '--remote-debugging-pipe', `--user-data-dir=${home}`, `--window-size=${SIZE}`, 'about:blank'];
  const child = spawn(command, words, { stdio: ['ignore', 'ignore', 'ignore', 'pipe', 'pipe'], detached: kept !== undefined });
  const page = new ChromiumPage(child, home);
  page.product = `Chromium ${/[\d.]+/.exec((await page.send('Browser.getVersion')).product)[0]}`;
  await page.send('Browser.grantPermissions', { permissions: ['clipboardReadWrite', 'clipboardSanitizedWrite'] });
  await page.send('Browser.setDownloadBehavior', { behavior: 'allow', downloadPath: path.resolve(downloads) });
  await page.replace();
  return page;
}

module.exports = { openChromium, SWITCHES };

// A browser without a window, driven over a pipe by the DevTools protocol.
import { spawn } from 'node:child_process';
import { existsSync, mkdtempSync, rmSync } from 'node:fs';
import { tmpdir } from 'node:os';
import { delimiter, join } from 'node:path';

/** The path of Chromium, or null. */
export function chromium() {
  const folders = (process.env.PATH ?? '').split(delimiter);
  const names = ['chromium', 'chromium-browser', 'google-chrome', 'google-chrome-stable'];
  const found = names.flatMap((name) => folders.map((folder) => join(folder, name))).find(existsSync);
  return process.env.CHROMIUM ?? found ?? null;
}

/** A tab of a browser of its own. */
export class Tab {
  #process;
  #folder;
  #session;
  #waiting = new Map();
  #events = [];
  #last = 0;

  /** Opens a page; `flags` are more words for Chromium. */
  static async open(url, { flags = [], width = 1280, height = 800 } = {}) {
    const tab = new Tab();
    tab.#start(flags);
    const { targetId } = await tab.#send('Target.createTarget', { url: 'about:blank' });
    tab.#session = (await tab.#send('Target.attachToTarget', { targetId, flatten: true })).sessionId;
    for (const domain of ['Page', 'Runtime', 'Network']) await tab.send(`${domain}.enable`);
    await tab.send('Emulation.setDeviceMetricsOverride', { width, height, deviceScaleFactor: 1, mobile: false });
    await tab.send('Page.navigate', { url });
    // A machine that has much else to do starts a browser slowly.
    await tab.until('document.readyState === "complete" && document.getElementById("says").textContent !== ""', 300);
    return tab;
  }

  #start(flags) {
    this.#folder = mkdtempSync(join(tmpdir(), 'spoonharbor-page-'));
    const words = [
      '--headless=new', '--no-first-run', '--disable-gpu', '--disable-extensions', '--disable-background-networking',
      '--disable-component-update', '--disable-sync', '--remote-debugging-pipe',
      `--user-data-dir=${this.#folder}`,
    ];
    // Root has no sandbox to run it in.
    if (process.getuid?.() === 0) words.push('--no-sandbox');
    this.#process = spawn(chromium(), [...words, ...flags], { stdio: ['ignore', 'ignore', 'ignore', 'pipe', 'pipe'] });
    let rest = '';
    this.#process.stdio[4].setEncoding('utf8').on('data', (data) => {
      const parts = (rest + data).split('\0');
      rest = parts.pop();
      parts.forEach((part) => this.#take(JSON.parse(part)));
    });
    this.#process.on('exit', () => this.#waiting.forEach(({ fail }) => fail(new Error('Chromium has ended'))));
  }

  #take(message) {
    const waiting = this.#waiting.get(message.id);
    if (waiting === undefined) {
      this.#events.push(message);
      return;
    }
    this.#waiting.delete(message.id);
    if (message.error) waiting.fail(new Error(`${waiting.method}: ${message.error.message}`));
    else waiting.done(message.result);
  }

  #send(method, params = {}, sessionId = undefined) {
    const id = ++this.#last;
    this.#process.stdio[3].write(`${JSON.stringify({ id, method, params, sessionId })}\0`);
    return new Promise((done, fail) => this.#waiting.set(id, { done, fail, method }));
  }

  send(method, params) {
    return this.#send(method, params, this.#session);
  }

  /** What has happened of a kind. */
  events(method) {
    return this.#events.filter((event) => event.method === method).map((event) => event.params);
  }

  /** The value of an expression in the page, or of the promise that it is. */
  async value(expression) {
    const { result, exceptionDetails } = await this.send('Runtime.evaluate', { expression, awaitPromise: true, returnByValue: true });
    if (exceptionDetails) throw new Error(exceptionDetails.exception?.description ?? exceptionDetails.text);
    return result.value;
  }

  /** Waits until an expression holds, at most so many seconds. */
  async until(expression, seconds = 120) {
    const end = Date.now() + seconds * 1000;
    while (!await this.value(expression).catch(() => false)) {
      if (Date.now() > end) throw new Error(`it never came: ${expression}`);
      await new Promise((done) => setTimeout(done, 20));
    }
  }

  /** Types a text, key by key. */
  async type(text) {
    for (const letter of text) {
      const key = letter === '\n' ? { key: 'Enter', code: 'Enter', windowsVirtualKeyCode: 13, text: '\r' } : { key: letter, text: letter };
      await this.send('Input.dispatchKeyEvent', { type: 'keyDown', ...key });
      await this.send('Input.dispatchKeyEvent', { type: 'keyUp', key: key.key });
    }
  }

  /** Presses a key that types nothing, with another held; `commands` are what that means to an editor. */
  async press(key, held = '', commands = []) {
    const codes = { Backspace: 8, Tab: 9, Enter: 13, Escape: 27, ArrowRight: 39, ArrowDown: 40, Delete: 46, F8: 119 };
    const windowsVirtualKeyCode = codes[key] ?? key.toUpperCase().charCodeAt(0);
    const modifiers = { '': 0, Alt: 1, Control: 2, Shift: 8 }[held];
    const words = { key, code: codes[key] === undefined ? `Key${key.toUpperCase()}` : key, windowsVirtualKeyCode, modifiers, commands };
    const down = key === 'Enter' ? { type: 'keyDown', text: '\r' } : { type: 'rawKeyDown' };
    await this.send('Input.dispatchKeyEvent', { ...down, ...words });
    await this.send('Input.dispatchKeyEvent', { type: 'keyUp', ...words });
  }

  /** A picture of the page, as bytes of a PNG. */
  async picture() {
    const { data } = await this.send('Page.captureScreenshot', { format: 'png' });
    return Buffer.from(data, 'base64');
  }

  async close() {
    const ended = new Promise((done) => this.#process.once('exit', done));
    this.#send('Browser.close').catch(() => {});
    const timer = setTimeout(() => this.#process.kill('SIGKILL'), 5000);
    await ended;
    clearTimeout(timer);
    rmSync(this.#folder, { recursive: true, force: true, maxRetries: 5, retryDelay: 100 });
  }
}

// The page in Chromium, from a disk: a fault is typed, seen at its place and mended by keys alone; the tree, files and
// both themes. Its pictures stay in target/web-test.
import assert from 'node:assert/strict';
import { mkdirSync, mkdtempSync, readdirSync, readFileSync, rmSync, writeFileSync } from 'node:fs';
import { tmpdir } from 'node:os';
import { join } from 'node:path';
import { built, Dice, module, root, test, wasm } from './check.mjs';
import { chromium, Tab } from './browser.mjs';

if (chromium() === null) {
  console.log('left out: the page in a browser, as there is no Chromium here');
  process.exit(0);
}

const { load, say } = await module();
const library = await load(wasm());
const pictures = `${root}/target/web-test`;
const folder = mkdtempSync(join(tmpdir(), 'spoonharbor-files-'));
mkdirSync(pictures, { recursive: true });

const tab = await Tab.open(`file://${built}/index.html`);
const text = () => tab.value('document.getElementById("text").value');
const says = () => tab.value('document.getElementById("says").textContent');
const keep = async (name) => writeFileSync(`${pictures}/${name}.png`, await tab.picture());
const select = (start, end) => tab.value(`(() => {
  const area = document.getElementById('text');
  area.focus();
  area.setSelectionRange(${start}, ${end});
})()`);

/** What the page should say of a text. */
function expected(text) {
  const document = library.open(text);
  const { refusal } = document;
  if (refusal !== null) return `${refusal.line}:${refusal.column} ${say(refusal)}`;
  const count = (number, thing) => `${number.toLocaleString('en')} ${thing}${number === 1 ? '' : 's'}`;
  return `A program: ${count(document.rowCount, 'row')}, ${count(document.tree.nodeCount, 'node')}.`;
}

/** Puts a file into the page as a person chooses one. */
async function choose(name, bytes) {
  writeFileSync(join(folder, name), bytes);
  await tab.send('DOM.enable');
  const { root: page } = await tab.send('DOM.getDocument');
  const { nodeId } = await tab.send('DOM.querySelector', { nodeId: page.nodeId, selector: '#chosen' });
  await tab.send('DOM.setFileInputFiles', { nodeId, files: [join(folder, name)] });
}

const first = readFileSync(`${root}/examples/guarded_counter.snx`, 'utf8');

await test('the page opens from a disk and fetches nothing', async () => {
  assert.equal(await text(), first);
  assert.equal(await says(), expected(first));
  const fetched = tab.events('Network.requestWillBeSent').map(({ request }) => request.url).filter((url) => url !== 'about:blank');
  assert.deepEqual(fetched, [`file://${built}/index.html`]);
  assert.equal(await tab.value('isSecureContext && [...document.querySelectorAll("[src],[href]")].length'), 0);
});

await test('a fault is seen at its place, with what would fit', async () => {
  const at = first.indexOf(';');
  await select(at, at + 1);
  await tab.press('Delete');
  const faulty = first.slice(0, at) + first.slice(at + 1);
  assert.equal(await text(), faulty);
  assert.equal(await says(), expected(faulty));
  assert.equal(await says(), "8:5 expected ';', found 'key'");
  const seen = await tab.value(`(() => {
    const [line] = document.querySelectorAll('#code .faulty');
    const mark = line.querySelector('.at').getBoundingClientRect();
    const bar = document.querySelector('#code .here').getBoundingClientRect();
    const paper = document.getElementById('paper').getBoundingClientRect();
    const letter = document.createElement('span');
    letter.textContent = 'x'.repeat(100);
    line.append(letter);
    const width = letter.getBoundingClientRect().width / 100;
    letter.remove();
    const at = ({ left, top }) => [(left - paper.left - 12) / width, (top - paper.top - 8) / 20].map(Math.round);
    return {
      mark: at(mark), bar: at(bar), words: line.querySelector('.at').textContent, hint: line.querySelector('.hint').textContent,
      number: document.querySelector('#numbers .faulty').textContent, row: document.querySelector('#rows .faulty').textContent,
      fits: document.getElementById('fits').textContent,
    };
  })()`);
  assert.deepEqual(seen, {
    mark: [4, 7], bar: [15, 6], words: 'key', hint: "expected ';', found 'key'", number: '8', row: '8:5key', fits: 'Would fit at the bar:;',
  });
  await keep('light');
});

await test('it is mended by keys alone', async () => {
  await tab.press('F8');
  assert.equal(await tab.value('document.activeElement.id + document.activeElement.selectionStart'), `text${first.indexOf('key') - 1}`);
  const stops = [];
  for (let stop = 0; stop < 8; stop++) {
    await tab.press('Tab');
    stops.push(await tab.value('document.activeElement.id || document.activeElement.textContent'));
    if (stops.at(-1) === ';') break;
  }
  assert.deepEqual(stops, ['rows-tab', 'rows', ';']);
  await tab.press('Enter');
  assert.equal(await text(), first);
  assert.equal(await says(), expected(first));
  assert.equal(await tab.value('document.querySelectorAll("#code .faulty, #code .at, #code .here").length'), 0);
  assert.equal(await tab.value('document.activeElement.id'), 'text');
});

await test('the rows follow the caret, and the tree is an outline', async () => {
  await select(first.indexOf('lookup('), first.indexOf('lookup('));
  await tab.until('document.querySelector("#rows [aria-selected=true]")?.textContent.includes("lookup")');
  await tab.press('Tab');
  await tab.press('ArrowRight');
  const { tree } = library.open(first);
  const items = '[...document.querySelectorAll("#tree [role=option]")]';
  const lines = await tab.value(`${items}.map((item) => item.children[1].textContent.search(/\\S/) / 2)`);
  assert.ok(lines.length > 10);
  assert.deepEqual(lines, [...tree.outline().depths].slice(0, lines.length));
  assert.equal(await tab.value('document.getElementById("tree").firstElementChild.offsetHeight'), tree.nodeCount * 20);
  assert.equal(await tab.value(`${items}[1].textContent`), '6:5  map packets: hash u32 u64, max 256');
  await tab.press('Tab');
  await tab.press('ArrowDown');
  await tab.press('Enter');
  const chosen = '(({ value, selectionStart, selectionEnd }) => value.slice(selectionStart, selectionEnd))(document.activeElement)';
  assert.equal(await tab.value(chosen), 'packets');
});

await test('the page is dark where the reader wants it', async () => {
  await tab.send('Emulation.setEmulatedMedia', { features: [{ name: 'prefers-color-scheme', value: 'dark' }] });
  await tab.until('document.documentElement.dataset.theme === "dark"');
  await keep('dark-tree');
  await select(first.indexOf('count)'), first.indexOf('count)') + 6);
  await tab.type('1 +');
  await tab.value('document.getElementById("rows-tab").click()');
  assert.equal(await says(), expected(await text()));
  await keep('dark');
  await tab.send('Emulation.setEmulatedMedia', { features: [{ name: 'prefers-color-scheme', value: 'light' }] });
  await tab.until('document.documentElement.dataset.theme === "light"');
});

await test('all colours can be read in both themes', async () => {
  const contrasts = await tab.value(`['light', 'dark'].flatMap((theme) => {
    document.documentElement.dataset.theme = theme;
    const style = getComputedStyle(document.documentElement);
    const light = (name) => {
      const parts = style.getPropertyValue(name).trim().match(/[0-9a-f]{2}/g).map((part) => parseInt(part, 16) / 255);
      const [r, g, b] = parts.map((part) => part <= 0.03928 ? part / 12.92 : ((part + 0.055) / 1.055) ** 2.4);
      return 0.2126 * r + 0.7152 * g + 0.0722 * b + 0.05;
    };
    const inks = ['--ink', '--faint', '--accent', '--fault', '--word', '--type', '--number', '--string', '--comment'];
    const pairs = inks.flatMap((ink) => ['--paper', '--desk'].map((back) => [ink, back]));
    pairs.push(['--ink', '--chosen'], ['--fault', '--fault-back'], ['--faint', '--chosen']);
    const contrast = (one, other) => Math.max(one, other) / Math.min(one, other);
    return pairs.map(([ink, back]) => [theme + ' ' + ink + ' on ' + back, contrast(light(ink), light(back))]);
  })`);
  await tab.value('document.documentElement.dataset.theme = "light"');
  for (const [name, contrast] of contrasts) assert.ok(contrast >= 4.5, `${name}: ${contrast.toFixed(2)}`);
  return `the least contrast is ${Math.min(...contrasts.map(([, contrast]) => contrast)).toFixed(2)}`;
});

await test('a file is opened and saved as it was, line ends too', async () => {
  const bytes = Buffer.from('// 0.1° 🔭\r\nunit u {\r\n    x += 1;\r\n}\r\n');
  await choose('returns.snx', bytes);
  await tab.until('document.getElementById("ask").open');
  await tab.value('document.querySelector("#ask [value=yes]").click()');
  await tab.until('document.getElementById("name").textContent === "returns.snx"');
  assert.equal(await text(), bytes.toString().replaceAll('\r', ''));
  assert.equal(await says(), expected(bytes.toString().replaceAll('\r', '')));
  await tab.send('Page.setDownloadBehavior', { behavior: 'allow', downloadPath: join(folder, 'saved') });
  await tab.press('s', 'Control');
  const saved = join(folder, 'saved', 'returns.snx');
  const end = Date.now() + 60000;
  while (!readdirSync(folder).includes('saved') || !readdirSync(join(folder, 'saved')).includes('returns.snx')) {
    assert.ok(Date.now() < end, 'nothing was saved');
    await new Promise((done) => setTimeout(done, 50));
  }
  assert.deepEqual(readFileSync(saved), bytes);
});

await test('a file that is no UTF-8 is not opened, and the text stays', async () => {
  const before = await text();
  await choose('latin.snx', Buffer.from([0x2f, 0x2f, 0x0a, 0xb0, 0x0a]));
  await tab.until('document.getElementById("says").textContent.includes("latin.snx")');
  assert.equal(await says(), 'latin.snx is not opened: 2:1: no UTF-8 character begins here');
  assert.equal(await text(), before);
});

if (library.has('layout')) {
  await test('a text is laid out after a question, and it can be undone', async () => {
    await choose('laid.snx', first);
    await tab.until('document.getElementById("name").textContent === "laid.snx"');
    await select(0, 0);
    await tab.press('l', 'Alt');
    await tab.until('document.getElementById("ask").open');
    const question = `A layout has no comments: ${library.open(first).comments} would be lost.`;
    assert.equal(await tab.value('document.getElementById("question").textContent'), question);
    await tab.press('Enter');
    await tab.until('!document.getElementById("ask").open');
    assert.equal(await text(), first, 'what does nothing has the focus');
    await tab.press('l', 'Alt');
    await tab.until('document.getElementById("ask").open');
    await tab.value('document.querySelector("#ask [value=yes]").focus()');
    await tab.press('Enter');
    const laid = library.open(first).layout().text;
    await tab.until(`document.getElementById("text").value === ${JSON.stringify(laid)}`);
    assert.equal(await says(), expected(laid));
    await keep('laid');
    await tab.press('z', 'Control', ['undo']);
    await tab.until(`document.getElementById("text").value === ${JSON.stringify(first)}`);
    assert.equal(await says(), expected(first));
  });
} else {
  console.log('left out: the layout button, as the wasm has no call for it');
  assert.ok(await tab.value('document.getElementById("lay").hidden'));
}

await test('keys in 60,000 bytes are followed one by one', async () => {
  const dice = new Dice(7);
  await choose('long.snx', first.repeat(Math.floor(60000 / first.length)));
  await tab.until('document.getElementById("name").textContent === "long.snx"');
  for (let key = 0; key < 30; key++) {
    const now = await text();
    if (key % 6 === 0) {
      const at = dice.below(now.length);
      await select(at, Math.min(now.length, at + dice.below(4)));
    }
    const pressed = dice.one([';', 'x', ' ', '"', '/', '*', '(', '}', 'Backspace', 'Delete', '\n', '1']);
    await (pressed.length > 1 ? tab.press(pressed) : tab.type(pressed));
    assert.equal(await says(), expected(await text()), `key ${key}, ${pressed}`);
  }
});

await test('nothing was thrown', () => {
  assert.deepEqual(tab.events('Runtime.exceptionThrown').map(({ exceptionDetails }) => exceptionDetails.text), []);
});

await tab.close();
rmSync(folder, { recursive: true });

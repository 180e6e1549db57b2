import { MapType, NodeKind, ProgramKind, RefusalNumber, RowKind, Shape, Type } from './numbers.js';
import { load, MISSING } from './spoonharbor.js';
import { explain, kindName, say, spellingOf } from './messages.js';
import { MODULE } from './module.js';

// The page: an editor whose rows, tree and message follow each keystroke.

const part = (id) => document.getElementById(id);
const area = part('text');

// What is set is set only if it is another, as an equal one costs time too.

function setText(element, text) {
  if (element.textContent !== text) element.textContent = text;
}

function setStyle(element, name, value) {
  if (element.style[name] !== value) element.style[name] = value;
}

function setAttribute(element, name, value) {
  if (element.getAttribute(name) !== value) element.setAttribute(name, value);
}

/** An element with a class and a text. */
function made(name, className, text = '') {
  return Object.assign(document.createElement(name), { className, textContent: text });
}

/** Pixels of a line, as in the style sheet, and what stands above the first one. */
const LINE = 20;
const MARGIN = 8;

/** Units of a line from which on it is shown in one colour. */
const LONG_LINE = 2000;

/** The refusals that are about the row at their place, so that what fits does so in front of it. */
const ABOUT_THEIR_ROW = new Set([
  RefusalNumber.WANTED, RefusalNumber.NOT_TOP_LEVEL, RefusalNumber.NOT_MAP_FIELD, RefusalNumber.NOT_EVENT_TYPE,
]);

const library = await load(Uint8Array.from(atob(MODULE), (letter) => letter.charCodeAt(0)));
const probe = library.open('');

/** What the editor shows: where its lines start, refusal and tree, where the caret was, how far it is scrolled. */
const view = { starts: [0], fault: null, outline: null, message: null, caret: 0, top: 0, left: 0, height: 0 };

/** The file that was opened or saved last. */
const file = { name: 'untitled.snx', text: '', hasReturns: false };

// The text.

/** Takes over what was typed. */
function follow() {
  const now = area.value;
  if (now !== probe.text) {
    const { start, end, text } = typedAt(probe.text, now) ?? difference(probe.text, now);
    probe.replace(start, end, text);
    show();
  }
}

/** The change as the caret tells it: what stands between where it was and where it is. Null if there is more to it. */
function typedAt(old, now) {
  const behind = area.selectionEnd;
  const start = Math.min(view.caret, behind);
  const end = old.length - (now.length - behind);
  const isAll = start <= end && now.startsWith(old.slice(0, start)) && now.endsWith(old.slice(end));
  return isAll ? { start, end, text: now.slice(start, behind) } : null;
}

/** The one stretch in which two texts differ. */
function difference(old, now) {
  const most = Math.min(old.length, now.length);
  let front = 0;
  while (front < most && old.charCodeAt(front) === now.charCodeAt(front)) front++;
  let back = 0;
  while (back < most - front && old.charCodeAt(old.length - 1 - back) === now.charCodeAt(now.length - 1 - back)) back++;
  return { start: front, end: old.length - back, text: now.slice(front, now.length - back) };
}

/** Puts a text in the place of a stretch, as if it were typed, so that it can be undone. */
function type(start, end, text) {
  area.focus();
  area.setSelectionRange(start, end);
  const isTyped = text === '' ? document.execCommand('delete') : document.execCommand('insertText', false, text);
  if (!isTyped) area.setRangeText(text, start, end, 'end');
  follow();
}

function show() {
  view.fault = probe.refusal;
  view.outline = probe.tree?.outline() ?? null;
  view.starts = lineStarts(probe.text);
  drawCode();
  rows.show(probe.rowCount, probe.rowAfter(area.selectionStart));
  tree.show(view.outline?.nodes.length ?? 0);
  drawMessage();
  drawName();
}

function lineStarts(text) {
  const starts = [0];
  for (let at = text.indexOf('\n'); at >= 0; at = text.indexOf('\n', at + 1)) starts.push(at + 1);
  return starts;
}

/** The number of the line that has an offset. */
function lineOf(offset) {
  let low = 0;
  let high = view.starts.length;
  while (high - low > 1) {
    const middle = low + high >> 1;
    if (view.starts[middle] <= offset) low = middle;
    else high = middle;
  }
  return low;
}

// The code: the lines in view, painted by their rows, under a text field whose letters do not show.

const painted = { code: [], numbers: [] };

function drawCode() {
  const first = Math.max(0, Math.floor((view.top - MARGIN) / LINE));
  const count = Math.min(view.starts.length - first, Math.ceil(view.height / LINE) + 2);
  const [code, numbers] = [part('code').firstElementChild, part('numbers').firstElementChild];
  setStyle(code, 'transform', `translate(${-view.left}px, ${first * LINE - view.top}px)`);
  setStyle(numbers, 'transform', `translateY(${first * LINE - view.top}px)`);
  const faultLine = view.fault === null ? -1 : lineOf(view.fault.offset);
  const next = { row: probe.rowAfter(view.starts[first]) };
  for (let at = 0; at < count; at++) {
    const line = first + at;
    const isFaulty = line === faultLine;
    const pieces = piecesOf(line, next);
    if (isFaulty) pieces.push(['hint', say(view.fault)]);
    paint(code, painted.code, at, pieces, isFaulty);
    paint(numbers, painted.numbers, at, [['', String(line + 1)]], isFaulty);
  }
  for (const [lines, known] of [[code, painted.code], [numbers, painted.numbers]]) {
    while (lines.childElementCount > Math.max(count, 0)) [lines.lastElementChild.remove(), known.pop()];
  }
}

/** Fills a line, unless it shows the same already. */
function paint(lines, known, at, pieces, isFaulty) {
  const key = JSON.stringify([pieces, isFaulty]);
  if (known[at] === key) return;
  known[at] = key;
  const line = lines.children[at] ?? lines.appendChild(document.createElement('div'));
  line.className = isFaulty ? 'faulty' : '';
  line.replaceChildren(...pieces.map(([name, text]) => name === '' ? text : made('span', name, text)));
}

/** A line as pieces, each with the name of its style; `next` has the first row that does not end in front of it. */
function piecesOf(line, next) {
  const text = probe.text;
  const from = view.starts[line];
  const to = line + 1 < view.starts.length ? view.starts[line + 1] - 1 : text.length;
  if (to - from > LONG_LINE) {
    next.row = probe.rowAfter(to);
    return [['', text.slice(from, to)]];
  }
  const pieces = [];
  let at = from;
  for (;; next.row++) {
    const row = probe.row(next.row);
    if (row === null || row.kind === RowKind.EOF || row.start >= to) break;
    between(pieces, at, row.start);
    pieces.push([styleOf(row.kind) + (row.start === view.fault?.offset ? ' at' : ''), text.slice(row.start, row.end)]);
    at = row.end;
  }
  between(pieces, at, to);
  return marked(pieces, from, to);
}

/** What stands between rows: blanks, comments, and what was not read. */
function between(pieces, from, to) {
  const end = probe.scanRefusal?.offset ?? to;
  const read = probe.text.slice(from, Math.max(from, Math.min(to, end)));
  if (read !== '') pieces.push([/\S/.test(read) ? 'comment' : '', read]);
  const from_there = from + read.length;
  if (from_there < to) pieces.push(['unread', probe.text.slice(from_there, to)]);
}

/** Pieces with a bar where something would fit, and with a mark at a place that no row has. */
function marked(pieces, from, to) {
  const { fault } = view;
  if (fault === null) return pieces;
  const bar = ABOUT_THEIR_ROW.has(fault.number) ? fitPlace() : null;
  if (bar !== null && bar >= from && bar <= to) pieces = cut(pieces, from, bar, 0, () => ['here', '']);
  const isInLine = fault.offset >= from && fault.offset <= to;
  if (!isInLine || pieces.some(([name]) => name.endsWith(' at'))) return pieces;
  const size = fault.offset === to ? 0 : probe.text.codePointAt(fault.offset) > 0xffff ? 2 : 1;
  return cut(pieces, from, fault.offset, size, (name, text) => [`${name} at`, text || ' ']);
}

/** Pieces cut at a place, and so many units behind it made into another piece. */
function cut(pieces, from, place, size, made) {
  const out = [];
  let at = from;
  let isDone = false;
  for (const [name, text] of pieces) {
    const inside = place - at;
    at += text.length;
    if (isDone || inside >= text.length) {
      out.push([name, text]);
      continue;
    }
    isDone = true;
    if (inside > 0) out.push([name, text.slice(0, inside)]);
    out.push(made(name, text.slice(inside, inside + size)));
    if (inside + size < text.length) out.push([name, text.slice(inside + size)]);
  }
  if (!isDone) out.push(made('', ''));
  return out;
}

function styleOf(kind) {
  if (kind <= RowKind.EVENT || kind === RowKind.BYTES) return 'word';
  if (kind >= RowKind.TYPE_U32 && kind <= RowKind.TYPE_I64) return 'type';
  if (kind === RowKind.NUMBER) return 'number';
  if (kind === RowKind.STRING_LITERAL) return 'string';
  return '';
}

// Lists: so many items, of which those in view are made.

class List {
  #element;
  #tell;
  #go;
  #count = 0;
  #active = 0;
  /** How far it is scrolled and how high it is, noted so that nothing has to be laid out to know it. */
  #top = 0;
  #height = 0;
  #all = made('div', 'all');
  #shown = made('div', 'shown');
  #none;
  /** What each item's element shows. */
  #known = new WeakMap();

  /**
   * `tell(number)` tells an item's place, what it is and what is told of it, with the styles of the item and of the
   * last of these; `go(number)` shows an item in the text; `none` is said of no items.
   */
  constructor(element, tell, go, none) {
    this.#element = element;
    this.#tell = tell;
    this.#go = go;
    this.#none = made('p', 'none', none);
    this.#all.append(this.#shown);
    element.append(this.#all, this.#none);
    element.addEventListener('scroll', () => {
      if (this.#top === element.scrollTop) return;
      this.#top = element.scrollTop;
      this.draw();
    });
    element.addEventListener('keydown', (event) => this.#press(event));
    element.addEventListener('click', (event) => this.#click(event));
  }

  /** Shows so many items, with one of them active and in view. */
  show(count, active = this.#active) {
    this.#count = count;
    this.#active = Math.max(0, Math.min(active, count - 1));
    const top = this.#active * LINE;
    if (top < this.#top) this.#scroll(top);
    else if (top + 2 * LINE > this.#top + this.#height) this.#scroll(top + 2 * LINE - this.#height);
    this.draw();
  }

  /** Makes an item the active one and brings it into view. */
  activate(number) {
    if (number !== this.#active) this.show(this.#count, number);
  }

  /** Measures how much is in view. */
  measure() {
    this.#height = this.#element.clientHeight;
    this.show(this.#count);
  }

  #scroll(top) {
    if (this.#element.hidden) return;
    setStyle(this.#all, 'height', `${this.#count * LINE}px`);
    this.#element.scrollTop = top;
    this.#top = this.#element.scrollTop;
  }

  draw() {
    const element = this.#element;
    if (element.hidden) return;
    this.#none.hidden = this.#count > 0;
    setStyle(this.#all, 'height', `${this.#count * LINE}px`);
    const first = Math.min(Math.floor(this.#top / LINE), Math.max(this.#count - 1, 0));
    const count = Math.min(this.#count - first, Math.ceil(this.#height / LINE) + 1);
    setStyle(this.#shown, 'top', `${first * LINE}px`);
    while (this.#shown.childElementCount > count) this.#shown.lastElementChild.remove();
    while (this.#shown.childElementCount < count) this.#shown.append(emptyItem());
    for (let at = 0; at < count; at++) this.#drawItem(this.#shown.children[at], first + at);
    setAttribute(element, 'aria-activedescendant', this.#count > 0 ? `${element.id}-${this.#active}` : '');
  }

  /** Fills an item, unless it shows the same already. */
  #drawItem(item, number) {
    const { texts, styles } = this.#tell(number);
    const key = JSON.stringify([number, number === this.#active, texts, styles]);
    if (this.#known.get(item) === key) return;
    this.#known.set(item, key);
    item.id = `${this.#element.id}-${number}`;
    item.dataset.number = number;
    item.setAttribute('aria-posinset', number + 1);
    item.setAttribute('aria-selected', number === this.#active);
    item.className = styles[0];
    texts.forEach((text, at) => setText(item.children[at], text));
    item.lastElementChild.className = styles[1];
  }

  #press(event) {
    const page = Math.max(1, Math.floor(this.#element.clientHeight / LINE) - 1);
    const steps = { ArrowDown: 1, ArrowUp: -1, PageDown: page, PageUp: -page, Home: -this.#count, End: this.#count };
    if (event.key in steps) this.activate(this.#active + steps[event.key]);
    else if (event.key === 'Enter' && this.#count > 0) this.#go(this.#active);
    else return;
    event.preventDefault();
  }

  #click(event) {
    const item = event.target.closest('[data-number]');
    if (item === null) return;
    this.activate(Number(item.dataset.number));
    this.#go(this.#active);
  }
}

/** An item with room for a place, what it is, and what is told of it. */
function emptyItem() {
  const item = made('div', '');
  item.setAttribute('role', 'option');
  item.append(...['place', 'kind', 'told'].map((name) => made('span', name)));
  return item;
}

const rows = new List(part('rows'), (number) => {
  const row = probe.row(number);
  const spelling = probe.text.slice(row.start, row.end);
  const value = row.kind === RowKind.NUMBER && String(row.value) !== spelling ? ` = ${row.value}` : '';
  const kind = spellingOf(row.kind) === null ? `${kindName(row.kind)} ` : '';
  return {
    texts: [`${row.line}:${row.column}`, kind, spelling + value],
    styles: [row.start === view.fault?.offset ? 'faulty' : '', styleOf(row.kind)],
  };
}, (number) => choose(probe.row(number)), 'No rows.');

const tree = new List(part('tree'), (number) => {
  const node = probe.tree.node(view.outline.nodes[number]);
  const row = probe.row(node.place);
  const depth = view.outline.depths[number];
  const indent = depth <= 40 ? '  '.repeat(depth) : `${'  '.repeat(40)}[${depth}] `;
  return { texts: [`${row.line}:${row.column}`, `${indent}${nameIn(NodeKind, node.kind)} `, factsOf(node)], styles: ['', ''] };
}, (number) => choose(probe.row(probe.tree.node(view.outline.nodes[number]).place)), 'No tree: the text is no program.');

/** A number's name in one of the header's lists, in small letters. */
function nameIn(list, number) {
  const name = Object.keys(list).find((key) => list[key] === number);
  return (name ?? String(number)).toLowerCase().replaceAll('_', list === NodeKind ? ' ' : '_');
}

/** A node's name and what else it says. */
function factsOf(node) {
  const [first, second, third, fourth] = node.facts;
  const name = node.name === null ? '' : probe.spelling(node.name);
  const typeName = (number) => number === 0 ? '' : ` ${nameIn(Type, number)}`;
  switch (node.kind) {
    case NodeKind.NUMBER: return String(BigInt.asIntN(64, BigInt(second) << 32n | BigInt(first)));
    case NodeKind.UNIT: return `${name}, ${nameIn(ProgramKind, first)}${second === MISSING ? '' : `, ${probe.spelling(second)}`}`;
    case NodeKind.EVENT_FIELD: {
      const element = first === Shape.BYTES ? ' bytes' : typeName(second);
      return `${name}:${element}${first === Shape.PLAIN ? '' : `[${third}]`}`;
    }
    case NodeKind.MAP: {
      const types = [second, third].filter((type) => type !== 0).map((type) => nameIn(Type, type));
      return `${name}: ${[nameIn(MapType, first), ...types].join(' ')}, max ${fourth}`;
    }
    default: return name;
  }
}

/** Shows a row in the text. */
function choose(row) {
  area.focus();
  area.setSelectionRange(row.start, row.end);
  bringIntoView(row.start);
}

/** Scrolls the text so that an offset's line is in view. */
function bringIntoView(offset) {
  const top = MARGIN + lineOf(offset) * LINE;
  if (top < area.scrollTop + LINE) area.scrollTop = top - 3 * LINE;
  else if (top + 2 * LINE > area.scrollTop + area.clientHeight) area.scrollTop = top + 4 * LINE - area.clientHeight;
}

/** Makes the caret's row the active one. */
function followCaret() {
  if (document.activeElement === area && area.value === probe.text) rows.activate(probe.rowAfter(area.selectionStart));
}

// The message.

function drawMessage() {
  const { fault } = view;
  const [place, words] = part('says').children;
  setAttribute(part('says'), 'class', fault === null ? '' : 'faulty');
  if (fault === null) {
    const count = (number, thing) => `${number.toLocaleString('en')} ${thing}${number === 1 ? '' : 's'}`;
    setText(place, '');
    setText(words, `A program: ${count(probe.rowCount, 'row')}, ${count(view.outline.nodes.length, 'node')}.`);
  } else {
    setText(place, `${fault.line}:${fault.column} `);
    setText(words, say(fault));
  }
  // What stands below hangs on no more than this.
  const key = fault === null ? '' : `${fault.number} ${fault.fitting?.words}`;
  if (key === view.message) return;
  view.message = key;
  drawFits(fault);
  drawMeaning(fault);
  part('fault').disabled = fault === null;
  part('lay').disabled = fault !== null;
}

/** Says something that is no refusal of the text, until the text changes. */
function complain(text) {
  const [place, words] = part('says').children;
  setAttribute(part('says'), 'class', 'faulty');
  setText(place, '');
  setText(words, text);
}

/** What would fit, each kind by itself; those that are spelt in one way can be put in. */
function drawFits(fault) {
  const fits = part('fits');
  fits.hidden = fault?.fitting == null;
  if (fits.hidden) return;
  const isAtRow = ABOUT_THEIR_ROW.has(fault.number);
  fits.replaceChildren(isAtRow ? 'Would fit at the bar:' : 'Would have fitted in front:', ...fault.fitting.kinds().map((kind) => {
    const spelling = spellingOf(kind);
    if (spelling === null || !isAtRow) return made('span', '', spelling ?? kindName(kind));
    const button = made('button', '', spelling);
    return Object.assign(button, { type: 'button', title: `Put ${spelling} there`, onclick: () => putIn(spelling) });
  }));
}

function drawMeaning(fault) {
  const meaning = fault === null ? null : explain(fault.number);
  part('more').hidden = meaning === null;
  if (meaning === null) return;
  part('more').querySelector('summary').textContent = `What ${meaning.number} means: ${meaning.title}`;
  part('more').querySelector('p').textContent = meaning.meaning;
  const [refused, fine] = part('more').querySelectorAll('dd');
  refused.textContent = meaning.refused;
  fine.textContent = meaning.fine;
}

/** Where what fits would stand: behind the row in front of the place. */
function fitPlace() {
  const at = probe.rowAfter(view.fault.offset);
  return probe.row(at - 1)?.end ?? 0;
}

/** Puts a word or sign where it would fit. */
function putIn(spelling) {
  const at = fitPlace();
  const touches = (letters) => /\w\w/.test(letters);
  const front = touches((probe.text[at - 1] ?? '') + spelling[0]) ? ' ' : '';
  const back = touches(spelling.at(-1) + (probe.text[at] ?? '')) ? ' ' : '';
  type(at, at, front + spelling + back);
}

function goToFault() {
  if (view.fault === null) return;
  area.focus();
  area.setSelectionRange(view.fault.offset, view.fault.offset);
  bringIntoView(view.fault.offset);
}

// Files. Nothing is written over: a file is saved among the downloads.

const isChanged = () => area.value !== file.text;

function drawName() {
  setText(part('name'), isChanged() ? `${file.name} •` : file.name);
}

/** Asks a question; what does nothing has the focus. */
function ask(question, yes) {
  const dialog = part('ask');
  part('question').textContent = question;
  dialog.querySelector('[value="yes"]').textContent = yes;
  dialog.returnValue = 'no';
  dialog.showModal();
  return new Promise((answer) => {
    dialog.addEventListener('close', () => answer(dialog.returnValue === 'yes'), { once: true });
  });
}

async function openFile(chosen) {
  const { text, refusal } = library.decode(new Uint8Array(await chosen.arrayBuffer()));
  if (refusal !== null) {
    complain(`${chosen.name} is not opened: ${refusal.line}:${refusal.column}: ${say(refusal)}`);
    return;
  }
  const returns = text.split('\r').length - 1;
  const hasReturns = returns > 0 && returns === text.split('\r\n').length - 1 && returns === text.split('\n').length - 1;
  const mixed = `${chosen.name} has line ends of several kinds. Here each is a newline, and newlines are saved.`;
  if (returns > 0 && !hasReturns && !await ask(mixed, 'Open it')) return;
  if (isChanged() && !await ask(`${file.name} was changed and is not saved. Open ${chosen.name} in its place?`, 'Open it')) return;
  Object.assign(file, { name: chosen.name, hasReturns });
  area.value = text;
  file.text = area.value;
  area.setSelectionRange(0, 0);
  area.scrollTop = 0;
  follow();
  drawName();
}

function saveFile() {
  const text = file.hasReturns ? area.value.replaceAll('\n', '\r\n') : area.value;
  const link = document.createElement('a');
  link.href = URL.createObjectURL(new Blob([text], { type: 'text/plain' }));
  link.download = file.name;
  link.click();
  setTimeout(() => URL.revokeObjectURL(link.href), 10000);
  file.text = area.value;
  drawName();
}

async function layOut() {
  if (!library.has('layout') || view.fault !== null) return;
  const { text, refusal } = probe.layout();
  if (refusal !== null) {
    complain(`Not laid out: ${say(refusal)}`);
    return;
  }
  const { comments } = probe;
  const lost = comments === 1 ? 'A layout has no comments: one would be lost.' : `A layout has no comments: ${comments} would be lost.`;
  if (comments === 0 || await ask(lost, 'Lay out')) type(0, area.value.length, text);
}

// What is pressed.

function setTheme(isDark) {
  document.documentElement.dataset.theme = isDark ? 'dark' : 'light';
  part('theme').textContent = isDark ? 'Light' : 'Dark';
}

function selectTab(name) {
  for (const other of ['rows', 'tree']) {
    part(other).hidden = other !== name;
    part(`${other}-tab`).setAttribute('aria-selected', String(other === name));
    part(`${other}-tab`).tabIndex = other === name ? 0 : -1;
  }
  (name === 'rows' ? rows : tree).measure();
}

const pressed = {
  'Control+o': () => part('chosen').click(),
  'Control+s': saveFile,
  'Alt+l': layOut,
  'F8': goToFault,
};

function listen() {
  area.addEventListener('beforeinput', () => { view.caret = area.selectionStart; });
  area.addEventListener('input', follow);
  area.addEventListener('scroll', () => {
    Object.assign(view, { top: area.scrollTop, left: area.scrollLeft });
    drawCode();
  });
  document.addEventListener('selectionchange', followCaret);
  document.addEventListener('keydown', (event) => {
    const control = event.ctrlKey || event.metaKey ? 'Control+' : '';
    const act = pressed[control + (event.altKey ? 'Alt+' : '') + (event.key.length === 1 ? event.key.toLowerCase() : event.key)];
    if (act !== undefined) [event.preventDefault(), act()];
  });
  part('open').addEventListener('click', pressed['Control+o']);
  part('save').addEventListener('click', saveFile);
  part('lay').addEventListener('click', layOut);
  part('fault').addEventListener('click', goToFault);
  part('theme').addEventListener('click', () => setTheme(document.documentElement.dataset.theme !== 'dark'));
  part('chosen').addEventListener('change', (event) => {
    const [chosen] = event.target.files;
    if (chosen !== undefined) openFile(chosen);
    event.target.value = '';
  });
  for (const name of ['rows', 'tree']) {
    part(`${name}-tab`).addEventListener('click', () => selectTab(name));
    part(`${name}-tab`).addEventListener('keydown', (event) => {
      if (event.key !== 'ArrowLeft' && event.key !== 'ArrowRight') return;
      const other = name === 'rows' ? 'tree' : 'rows';
      selectTab(other);
      part(`${other}-tab`).focus();
    });
  }
  listenForFiles();
  new ResizeObserver(() => {
    view.height = area.clientHeight;
    drawCode();
    rows.measure();
    tree.measure();
  }).observe(part('editor'));
}

/** Files that are dropped onto the page, and a text that would be lost with it. */
function listenForFiles() {
  const isFile = (event) => event.dataTransfer?.types.includes('Files');
  document.addEventListener('dragover', (event) => {
    if (!isFile(event)) return;
    event.preventDefault();
    document.body.classList.add('dropping');
  });
  document.addEventListener('dragleave', (event) => {
    if (event.relatedTarget === null) document.body.classList.remove('dropping');
  });
  document.addEventListener('drop', (event) => {
    document.body.classList.remove('dropping');
    if (!isFile(event)) return;
    event.preventDefault();
    if (event.dataTransfer.files.length > 0) openFile(event.dataTransfer.files[0]);
  });
  window.addEventListener('beforeunload', (event) => {
    if (isChanged()) event.preventDefault();
  });
}

function start() {
  const dark = matchMedia('(prefers-color-scheme: dark)');
  setTheme(dark.matches);
  dark.addEventListener('change', () => setTheme(dark.matches));
  part('lay').hidden = !library.has('layout');
  rows.measure();
  area.value = part('first').textContent.trimStart();
  file.text = area.value;
  view.height = area.clientHeight;
  listen();
  follow();
  show();
  area.setSelectionRange(0, 0);
  area.focus();
}

start();

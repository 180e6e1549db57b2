// The stored samples of the gate's replay programs, through the wasm: what they say is what the programs must write.
// compare/README.md says what stands in the samples.
import assert from 'node:assert/strict';
import { readFileSync } from 'node:fs';
import { root, test, wasm } from './check.mjs';
import { Lent } from './lent.mjs';

const UNTOUCHED = 2863311530;
const UNTOUCHED_BYTE = 170;
const [SECTION, LICENSE, PROGRAM, MISSING, NUMBER] = [23, 24, 29, 4294967295, 50];

const lent = new Lent(wasm());

/** A sample, read from its front on. */
class Sample {
  constructor(name, heading) {
    this.bytes = readFileSync(`${root}/crates/${name}/stdin`);
    this.at = this.bytes.indexOf(0x20);
    assert.equal(this.bytes.toString('latin1', 0, this.at), heading);
    assert.equal(this.number(), 1);
    this.count = this.number();
  }

  blanks() {
    while (this.bytes[this.at] === 0x20 || this.bytes[this.at] === 0x0a) this.at++;
  }

  letter(letter) {
    this.blanks();
    assert.equal(String.fromCharCode(this.bytes[this.at]), letter);
    this.at++;
    return this;
  }

  /** The next number; null where the sample says none. */
  word() {
    this.blanks();
    if (this.bytes[this.at] === 0x3f) return this.at++, null;
    const from = this.at;
    let value = 0;
    for (; this.bytes[this.at] >= 0x30 && this.bytes[this.at] <= 0x39; this.at++) value = value * 10 + this.bytes[this.at] - 0x30;
    assert.ok(this.at > from, `no number at ${from}`);
    return value;
  }

  number() {
    const value = this.word();
    assert.notEqual(value, null);
    return value;
  }

  words(count) {
    return Array.from({ length: count }, () => this.word());
  }

  /** A stretch of bytes as they are. */
  part(letter) {
    const size = this.letter(letter).number();
    this.at += 1 + size;
    return new Uint8Array(this.bytes.subarray(this.at - size, this.at));
  }

  /** Bytes that are zero but for some. */
  changes(bytes) {
    for (let left = this.number(); left > 0; left--) bytes[this.number()] = this.number();
    return bytes;
  }

  rest() {
    this.blanks();
    return this.bytes.length - this.at;
  }
}

/** What was counted, under the names that the programs write. */
class Tally {
  seen = new Map();
  agreed = new Map();
  differences = 0;

  held(name, agrees, count = 1) {
    this.seen.set(name, (this.seen.get(name) ?? 0) + count);
    this.agreed.set(name, (this.agreed.get(name) ?? 0) + (agrees ? count : 0));
    return agrees;
  }

  line(name) {
    return `${name}${this.seen.get(name) ?? 0}, agreed ${this.agreed.get(name) ?? 0}`;
  }

  numbers(most, first = 0) {
    const names = Array.from({ length: most - first }, (_, at) => `expected ${at + first}: `);
    return names.filter((name) => this.seen.has(name)).map((name) => this.line(name));
  }
}

const same = (ours, theirs) => ours.length === theirs.length && theirs.every((word, at) => word === null || word === ours[at]);
const row = (list, at) => list.subarray(8 * at, 8 * at + 8);

/** Whether memory behind a call has these rows and is else as it was. */
function isLeft(memory, rows, count) {
  return memory.every((word, at) => word === (at < 8 * count ? rows[at] : UNTOUCHED));
}

function texts() {
  const sample = new Sample('replay_texts', 'spoonharbor-sample');
  const tally = new Tally();
  let cases = 0;
  let unsaid = 0;
  const differing = new Set();
  const held = (name, agrees) => tally.held(name, agrees) || differing.add(cases);
  const compared = (name, ours, count) => {
    const theirs = sample.words(count);
    unsaid += theirs.filter((word) => word === null).length;
    return held(name, ours !== null && same([...ours].slice(0, count), theirs));
  };
  const [rows, nodes] = [new Uint32Array(16000), new Uint32Array(16000)];
  for (; cases < sample.count; cases++) {
    const text = Uint8Array.from(sample.words(sample.letter('T').number()));
    rows.fill(0);
    nodes.fill(0);
    const table = lent.told('scan', text, text.length, rows, rows.length);
    const size = sample.letter('R').number();
    held('row counts ', size === table[6]);
    for (let at = 0; at < size; at++) compared('rows ', at < table[6] ? row(rows, at) : null, 7);
    sample.letter('E');
    compared('endings ', table, 4);
    const parsed = lent.told('parse', text, text.length, rows, rows.length, table, nodes, nodes.length);
    const form = sample.letter('P').number();
    if (form === 0) {
      const isTold = table[0] === 0 ? parsed[0] === 27 || parsed[0] === 32 : same(parsed.slice(0, 4), [...table.slice(0, 4)]);
      held('parses that only the language answers ', isTold);
    } else if (form === 1) {
      compared('parse refusals ', [...parsed.slice(0, 6), 1], 7);
    } else {
      assert.equal(form, 2);
      let next = 0;
      const declarations = sample.number();
      for (let declaration = 0; declaration < declarations; declaration++) {
        let agrees = true;
        for (let left = sample.letter('D').number(); left > 0; left--) {
          while (next < parsed[6] && (nodes[8 * next] === SECTION || nodes[8 * next] === LICENSE)) next++;
          agrees = compared('nodes ', next < parsed[6] ? row(nodes, next) : null, 8) && agrees;
          next++;
        }
        held('declarations ', agrees);
      }
      const [kind, place, name, children] = row(nodes, next);
      const isLast = next + 1 === parsed[6] && place + 1 === table[6];
      held('programs ', isLast && kind === PROGRAM && name === MISSING && children === declarations);
    }
  }
  const names = [
    'row counts ', 'rows ', 'endings ', 'parse refusals ', 'programs ', 'declarations ', 'nodes ', 'parses that only the language answers ',
  ];
  return [
    `cases ${cases} of ${sample.count}`, `bytes behind the last case ${sample.rest()}`, ...names.map((name) => tally.line(name)),
    `words that the sample does not say ${unsaid}`, `differing cases ${differing.size}`,
  ];
}

const EDITS = [
  'worked cases: ', "at the text's start: ", "at the text's end: ", 'in a comment: ', 'in a string: ', 'opening a comment or string: ',
  'closing a comment or string: ', 'in a text that ends in a refusal: ', 'anywhere: ', 'with numbers or bytes that no text allows: ',
  'of a damaged table: ',
];

/** The rows of a text, which the sample's are written over: these have no count of comments. */
function expectedRows(sample, text) {
  const rows = new Uint32Array(2500);
  lent.told('scan', text, text.length, rows, rows.length);
  const size = sample.letter('R').number();
  for (let at = 0; at < size; at++) {
    const words = sample.words(5);
    rows.set([...words, ...words[0] === NUMBER ? sample.words(2) : [0, 0]], 8 * at);
  }
  return rows;
}

function edits() {
  const sample = new Sample('replay_edits', 'spoonharbor-edits');
  sample.part('H');
  const tally = new Tally();
  let count = 0;
  let differences = 0;
  const held = (name, agrees) => tally.held(name, agrees) || (differences++, false);
  for (; count < sample.count; count++) {
    const old = sample.part('T');
    const rows = new Uint32Array(2500);
    const table = lent.told('scan', old, old.length, rows, rows.length);
    for (let left = sample.letter('D').number(); left > 0; left--) rows[sample.number()] = sample.number();
    const [kind, a, b, n] = sample.letter('A').words(4);
    const put = sample.part('N');
    const text = new Uint8Array([...old.subarray(0, a), ...put, ...old.subarray(b)].slice(0, 600));
    const shown = new Uint8Array(600);
    shown.set(text);
    const restart = lent.told('restart', rows, rows.length, table, a);
    held('restart places ', same([...restart.slice(0, 4)], sample.letter('S').words(4)));
    const expected = expectedRows(sample, text);
    for (let left = sample.letter('C').number(); left > 0; left--) {
      const [start, size, words, ...told] = sample.words(9);
      const isExpected = (answer, memory) => {
        const isTold = same([...answer.slice(0, 4), answer[6], answer[7]], told);
        const isThere = isLeft(memory, expected, told[4]);
        tally.held('rows ', isThere, told[4]);
        return isTold && isThere;
      };
      const memory = new Uint32Array(2500).fill(UNTOUCHED);
      const window = start + size <= 600 ? shown.subarray(start, start + size) : shown.subarray(0, 0);
      const answer = lent.told('edit', rows, rows.length, table, a, b, n, start, window, window.length, memory, Math.min(words, 2500));
      const agrees = held('calls ', isExpected(answer, memory));
      tally.held(told[0] === 0 ? 'expected all rows: ' : `expected ${told[0]}: `, agrees);
      tally.held(EDITS[kind], agrees);
      if (told[0] !== 0 && told[0] !== 4 && told[0] < 11) continue;
      memory.fill(UNTOUCHED);
      const changed = lent.told('change', rows, rows.length, table, a, b, n, text, text.length, memory, Math.min(words, 2500));
      held('changes ', isExpected(changed, memory));
    }
  }
  const names = ['restart places ', 'calls ', 'changes ', 'rows ', ...EDITS, 'expected all rows: '];
  return [
    `edits ${count} of ${sample.count}`, `bytes behind the last edit ${sample.rest()}`, ...names.map((name) => tally.line(name)),
    ...tally.numbers(18, 1), `differences ${differences}`,
  ];
}

const DAMAGES = [
  'sound: ', 'one byte changed: ', 'one byte changed, its check made right: ', 'two blocks swapped: ', 'cut: ',
  'a block or bytes too many: ', 'block 0 says something else, its check made right: ',
];

function files() {
  const sample = new Sample('replay_files', 'spoonharbor-files');
  sample.part('H');
  const tally = new Tally();
  let count = 0;
  let differences = 0;
  const held = (name, agrees) => tally.held(name, agrees) || (differences++, false);
  for (; count < sample.count; count++) {
    const table = Uint32Array.from(sample.letter('T').words(8));
    const own = Uint32Array.from(sample.words(8 * sample.letter('R').number()));
    const rows = new Uint32Array(376);
    rows.set(own);
    sample.letter('F').number();
    const file = sample.changes(new Uint8Array(3072));
    for (let left = sample.letter('S').number(); left > 0; left--) {
      const room = sample.number();
      const told = sample.words(8);
      const memory = new Uint8Array(3072).fill(UNTOUCHED_BYTE);
      const answer = lent.told('store', own, own.length, table, memory, room);
      const isThere = memory.every((byte, at) => byte === (at < 512 * told[6] ? file[at] : UNTOUCHED_BYTE));
      tally.held('blocks ', isThere, told[6]);
      tally.held(`expected ${told[0]}: `, held('stores ', same([...answer], told) && isThere));
    }
    for (let left = sample.letter('L').number(); left > 0; left--) {
      const [damage, size, words] = sample.words(3);
      const bytes = sample.changes(file.slice());
      const told = sample.words(8);
      const memory = new Uint32Array(376).fill(UNTOUCHED);
      const answer = lent.told('load', bytes, size, memory, words);
      const isThere = isLeft(memory, rows, told[6]);
      tally.held('rows ', isThere, told[6]);
      const agrees = held('loads ', same([...answer], told) && isThere);
      tally.held(`expected ${told[0]}: `, agrees);
      tally.held(DAMAGES[damage], agrees);
    }
  }
  const names = ['stores ', 'loads ', 'blocks ', 'rows ', ...DAMAGES];
  return [
    `tables ${count} of ${sample.count}`, `bytes behind the last table ${sample.rest()}`, ...names.map((name) => tally.line(name)),
    ...tally.numbers(45), `differences ${differences}`,
  ];
}

/** What is lent, as one number. */
function digest(numbers) {
  return numbers.reduce((digest, x) => Number((BigInt(digest) * 31n + BigInt(x)) % 4294967291n), 0);
}

function forms() {
  const sample = new Sample('replay_forms', 'spoonharbor-forms');
  sample.part('H');
  const kinds = ['readings beside the text: ', 'moves: ', 'mendings: '];
  const agreed = new Map();
  let count = 0;
  let differences = 0;
  for (; count < sample.count; count++) {
    const text = sample.part('P');
    const size = sample.letter('F').number();
    const file = sample.changes(new Uint8Array(3072)).subarray(0, size);
    for (let left = sample.letter('C').number(); left > 0; left--) {
      const [kind, form, room, size] = sample.words(4);
      const told = sample.words(10);
      const memory = kind === 0 ? new Uint32Array(room).fill(UNTOUCHED) : new Uint8Array(room).fill(UNTOUCHED_BYTE);
      const list = new Uint32Array(kind === 2 ? size : 0).fill(UNTOUCHED);
      if (kind === 2) memory.set(file.subarray(0, room));
      const answer = [
        () => lent.told('load_beside', text, text.length, file, file.length, memory, room),
        () => lent.told('move', text, text.length, file, file.length, form, memory, room),
        () => lent.told('mend', text, text.length, form, memory, room, file.length, list, list.length),
      ][kind]();
      if (!same([...answer, digest(memory), digest(list)], told)) {
        differences++;
        continue;
      }
      for (const name of [kinds[kind], `expected ${told[0]}: `]) agreed.set(name, (agreed.get(name) ?? 0) + 1);
    }
  }
  const numbers = Array.from({ length: 46 }, (_, number) => `expected ${number}: `).filter((name) => agreed.has(name));
  return [
    `cases ${count} of ${sample.count}`, `bytes behind the last case ${sample.rest()}`,
    ...[...kinds, ...numbers].map((name) => `${name}agreed ${agreed.get(name) ?? 0}`), `differences ${differences}`,
  ];
}

for (const [name, replay] of Object.entries({ replay_texts: texts, replay_edits: edits, replay_files: files, replay_forms: forms })) {
  await test(`${name} writes what it must`, () => {
    const lines = replay();
    assert.equal(`${lines.join('\n')}\n`, readFileSync(`${root}/crates/${name}/stdout`, 'utf8'));
    return lines[0];
  });
}

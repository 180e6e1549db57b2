// The module: what it tells of texts, what it does with files, and what it throws.
import assert from 'node:assert/strict';
import { readFileSync } from 'node:fs';
import { module, root, test, wasm } from './check.mjs';

const there = await module();
const { Document, Form, KindSet, MISSING, NodeKind, RefusalNumber, RowKind } = there;
const { explain, kindName, load, say, sayEach, sayKinds, spellingOf } = there;
const library = await load(wasm());
const probe = readFileSync(`${root}/rust/examples/encoder.snx`, 'utf8');
const HALF = '\ud83d';
const PAIR = '\ud83d\ude00';

await test('the module starts by itself, from bytes and from a compiled module', async () => {
  const header = readFileSync(`${root}/include/spoonharbor.h`, 'utf8');
  const version = ['MAJOR', 'MINOR', 'PATCH'].map((part) => header.match(new RegExp(`VERSION_${part} (\\d+)`))[1]).join('.');
  for (const started of [await load(), library, await load(new WebAssembly.Module(wasm()))]) {
    assert.equal(started.version, version);
    assert.ok(started.has('change') && !started.has('nothing') && !started.has('toString'));
  }
});

await test("README's example: refused, told, mended", () => {
  const document = library.open(probe);
  const { refusal } = document;
  assert.equal(`${refusal.line}:${refusal.column}: ${say(refusal)}`, "12:5: expected ';', '.' or an operator, found 'return'");
  assert.deepEqual([document.rowCount, document.tree, refusal.number, refusal.found], [46, null, RefusalNumber.WANTED, RowKind.RETURN]);
  assert.ok(refusal.fitting.has(RowKind.SEMICOLON) && !refusal.fitting.has(RowKind.RETURN));
  const at = probe.indexOf('load_u64(0)') + 'load_u64(0)'.length;
  document.replace(at, at, ';');
  assert.deepEqual([document.rowCount, document.tree.nodeCount, document.refusal], [47, 11, null]);
  const shift = document.text.indexOf('<< 10');
  document.replace(shift + 3, shift + 5, '12');
  assert.deepEqual([document.rowCount, document.tree.nodeCount, document.refusal], [47, 11, null]);
});

await test("web/README.md's example is right", async () => {
  const block = readFileSync(`${root}/web/README.md`, 'utf8').match(/^ {4}import [^]*?(?=\n\n[^ ])/m)[0];
  const lines = block.split('\n').map((line) => line.trim()).filter((line) => line !== '' && !line.startsWith('import '));
  const checked = lines.map((line) => line.replace(/^([a-z].*?); +\/\/ (".*"|\d+|true)$/, 'assert.equal($1, $2);'));
  assert.equal(checked.filter((line) => line.startsWith('assert')).length, 3);
  const run = Object.getPrototypeOf(async () => {}).constructor('assert', 'load', 'RowKind', 'say', checked.join('\n'));
  await run(assert, load, RowKind, say);
});

await test('rows have their units, bytes, values and comments', () => {
  const document = library.open(`// °\n"${PAIR}" -0x10 /**/ /**/ x`);
  const words = ['kind', 'start', 'end', 'byteStart', 'byteEnd', 'line', 'column', 'value', 'comments'];
  assert.deepEqual(document.rows().map((row) => words.map((word) => row[word])), [
    [RowKind.STRING_LITERAL, 5, 9, 6, 12, 2, 1, 0n, 1],
    [RowKind.NUMBER, 10, 15, 13, 18, 2, 8, -16n, 0],
    [RowKind.IDENTIFIER, 26, 27, 29, 30, 2, 24, 0n, 2],
    [RowKind.EOF, 27, 27, 30, 30, 2, 25, 0n, 0],
  ]);
  assert.deepEqual([0, 1, 2, 3, 4].map((row) => document.spelling(row)), [`"${PAIR}"`, '-0x10', 'x', '', '']);
  assert.deepEqual([4, 5, 8, 9, 10, 26, 27].map((offset) => document.rowAfter(offset)), [0, 0, 0, 1, 1, 2, 4]);
  assert.deepEqual([document.comments, document.byteLength], [3, 30]);
  assert.deepEqual([4, -1, 0.5].map((row) => document.row(row)), [null, null, null]);
  assert.equal(document.rowWords().length, 32);
});

await test('the tree has its nodes, children and outline', () => {
  const document = library.open('map m { type: .ringbuf; max: 8; }\nunit u { section "xdp"; x = a + 2; f.g(1, 2); }');
  const { tree } = document;
  const told = (number) => {
    const { kind, name } = tree.node(number);
    const children = tree.children(number).map(told);
    return [Object.keys(NodeKind).find((key) => NodeKind[key] === kind), name === null ? '' : document.spelling(name), ...children];
  };
  assert.deepEqual(told(tree.root), ['PROGRAM', '', ['MAP', 'm'], ['UNIT', 'u', ['SECTION', '"xdp"'],
    ['ASSIGN', '', ['VARIABLE', 'x'], ['ADD', '', ['VARIABLE', 'a'], ['NUMBER', '']]],
    ['EXPRESSION', '', ['CALL', 'g', ['VARIABLE', 'f'], ['NUMBER', ''], ['NUMBER', '']]]]]);
  const { nodes, depths } = tree.outline();
  const expected = [];
  const walk = (number, depth) => {
    expected.push([number, depth]);
    tree.children(number).forEach((child) => walk(child, depth + 1));
  };
  walk(tree.root, 0);
  assert.deepEqual([...nodes].map((number, at) => [number, depths[at]]), expected);
  const [map, unit] = tree.children(tree.root).map((number) => tree.node(number));
  assert.deepEqual([map.facts, unit.facts], [[3, 0, 0, 8], [0, MISSING, 0, 0]]);
  assert.equal(tree.node(tree.nodeCount), null);
  document.replace(0, document.text.length, '');
  assert.equal(tree.nodeCount, 14, 'a tree stays as it is');
});

await test('each number has its texts, and its examples get it or do not', () => {
  const told = [];
  for (let number = 0; number < 100; number++) {
    const meaning = explain(number);
    if (meaning === null) continue;
    told.push(number);
    if (number < 11 || number > 32) continue;
    const refusal = library.open(meaning.refused).refusal;
    assert.equal(refusal.number, number);
    assert.notEqual(library.open(meaning.fine).refusal?.number, number);
    assert.doesNotMatch(say(refusal), /\{\w+\}|undefined|null/);
    assert.equal(/expected .*\bor\b/.test(say(refusal)) && refusal.fitting !== null, [21, 22, 23, 25, 30].includes(number), say(refusal));
  }
  const numbers = Object.keys(there).filter((name) => name.endsWith('RefusalNumber')).flatMap((name) => Object.values(there[name]));
  // 70 is told of tallies, which the module does not have.
  const known = numbers.filter((number) => number !== 70);
  assert.deepEqual(told, known.sort((a, b) => a - b), "the header's");
  assert.equal(say({ number: 29, first: 4 }), "the map before this has no 'max'");
  assert.equal(say({ number: 41, first: 12 }), 'block 12 is damaged');
  assert.equal(say({ number: 99 }), 'refused with 99');
});

await test('kinds and sets are said as the crate says them', () => {
  assert.equal(sayKinds(library.open('unit u { x = a + b }').refusal.fitting), "';', '.' or an operator other than a shift");
  const set = new KindSet(1 << 30, 1);
  assert.deepEqual([set.kinds(), set.words], [[RowKind.DOT, RowKind.SEMICOLON], [1 << 30, 1]]);
  assert.deepEqual([sayKinds(set), sayEach(new KindSet(0, 0))], ["'.' or ';'", 'nothing']);
  assert.deepEqual([kindName(RowKind.NUMBER), kindName(16)], ['number', 'another kind']);
  assert.deepEqual([spellingOf(RowKind.SHL), spellingOf(RowKind.NUMBER)], ['<<', null]);
});

await test('every text is held: too long, half a pair, and mended again', () => {
  const document = library.open(`${' '.repeat(65535)};`);
  assert.deepEqual([document.byteLength, document.rowCount], [65536, 2]);
  document.replace(0, 0, ' ');
  assert.deepEqual([document.byteLength, document.rowCount, document.refusal.number, document.tree], [65537, 0, 1, null]);
  assert.equal(document.store().refusal.number, 1);
  document.replace(0, 2, '');
  assert.deepEqual([document.rowCount, document.refusal.number], [2, 22]);
  const pair = library.open(`// é${PAIR}\nx`);
  pair.replace(5, 6, '');
  assert.deepEqual([pair.text, pair.rowCount], [`// é${HALF}\nx`, 0]);
  assert.deepEqual([pair.refusal.number, pair.refusal.offset, pair.refusal.byte], [2, 4, 5]);
  pair.replace(5, 5, '\ude01');
  assert.deepEqual([pair.text, pair.rowCount, pair.row(0).start, pair.row(0).byteStart], ['// é\ud83d\ude01\nx', 2, 7, 10]);
  pair.replace(5, 5, '/');
  assert.equal(pair.refusal.number, 2);
  assert.equal(library.open('x'.repeat(3e6)).refusal.number, 1);
});

await test('documents take turns in the memory', () => {
  const texts = ['', probe, 'unit u { x += 1; }', '@', `"${PAIR}" x`, HALF, ' '.repeat(65537)];
  const documents = texts.map((text) => library.open(text));
  const words = documents.map((document) => document.rowWords());
  for (let round = 0; round < 3; round++) {
    documents.forEach((document, at) => {
      document.replace(document.text.length, document.text.length, ' ');
      document.replace(document.text.length - 1, document.text.length, '');
      assert.deepEqual(document.rowWords(), words[at]);
      assert.deepEqual(document.refusal, library.open(texts[at]).refusal);
    });
  }
});

await test('rows are stored and read in both forms', () => {
  for (const text of [probe, '@', '', `"${PAIR}" x`]) {
    const document = library.open(text);
    const sizes = [Form.FULL, Form.SHORT].map((form) => {
      const { file, refusal } = document.store(form);
      assert.equal(refusal, null);
      const opened = library.openStored(text, file);
      assert.equal(opened.refusal, null);
      assert.deepEqual(opened.document.rowWords(), document.rowWords());
      assert.deepEqual(opened.document.refusal, document.refusal);
      assert.ok(opened.document.refresh());
      const damaged = file.slice();
      damaged[100] ^= 1;
      const read = library.openStored(text, damaged);
      assert.deepEqual([read.refusal.number, read.refusal.first, read.document.storedRefusal.number], [41, 0, 41]);
      assert.deepEqual(read.document.rowWords(), document.rowWords());
      assert.equal(library.openStored(`${text} `, file).refusal.number, 45);
      return file.length;
    });
    assert.ok(sizes[1] <= sizes[0]);
  }
  assert.equal(library.open(probe).store(3).refusal.number, 44);
  const { file } = library.open('a b').store(Form.SHORT);
  const other = library.openStored('a\nb', file).document;
  assert.deepEqual([other.refresh(), other.row(1).line, other.refresh()], [true, 2, true]);
  const wrong = library.openStored('abc', file).document;
  assert.deepEqual([wrong.rowCount, wrong.refresh(), wrong.rowCount, wrong.refresh()], [3, false, 2, true]);
  assert.deepEqual([42, 42, 44], [new Uint8Array(0), new Uint8Array(511), new Uint8Array(1e7)].map((file) => {
    const { document, refusal } = library.openStored('a b', file);
    assert.equal(document.rowCount, 3);
    return refusal.number;
  }));
  assert.equal(library.openStored('aé', library.open('a b').store().file).refusal.number, 45, 'a row inside a character');
  const many = library.open(';'.repeat(65535));
  assert.deepEqual([many.rowCount, many.store().refusal.number], [65536, 40]);
  many.replace(0, 1, '');
  assert.equal(many.store().file.length, 2237440);
});

await test('bytes are a text, or are refused at their place', () => {
  assert.deepEqual(library.decode(Buffer.from('\ufeffé')), { text: '\ufeffé', refusal: null });
  const { text, refusal } = library.decode(Uint8Array.from([0x61, 0x0a, 0xc3, 0xa9, 0xb0]));
  assert.deepEqual([text, refusal.number, refusal.offset, refusal.byte, refusal.line, refusal.column], [null, 2, 3, 4, 2, 3]);
  assert.equal(library.decode(new Uint8Array(70000).fill(0xff)).refusal.number, 1);
});

await test('misuse is named', async () => {
  const document = library.open('abc');
  for (const range of [[-1, 0], [2, 1], [0, 4], [0.5, 1], ['0', 1], [NaN, 1], [0]]) {
    assert.throws(() => document.replace(...range, ''), /^(Range|Type)Error: replace: /);
  }
  assert.throws(() => document.replace(0, 0, 1), { name: 'TypeError', message: 'replace: the text must be a string' });
  assert.throws(() => library.open(null), { name: 'TypeError', message: 'open: the text must be a string' });
  assert.throws(() => library.openStored('', [1]), { name: 'TypeError', message: 'openStored: the bytes must be a Uint8Array' });
  await assert.rejects(load('spoonharbor.wasm'), { name: 'TypeError', message: /^load: the source must be/ });
  assert.equal(document.text, 'abc');
  assert.ok(document instanceof Document);
});

if (library.has('layout')) {
  await test('a layout reads back as the same tree', () => {
    const example = readFileSync(`${root}/examples/samples.snx`, 'utf8');
    for (const text of ['unit u { x = (a + b) * ((2)); }', 'map m{max:0x10;type:.hash;key:u32;value:i64;}', '', example]) {
      const document = library.open(text);
      const { text: laid, refusal } = document.layout();
      assert.equal(refusal, null);
      const again = library.open(laid);
      const faces = ({ tree }) => Array.from({ length: tree.nodeCount }, (_, at) => [tree.node(at).kind, tree.node(at).childCount]);
      assert.deepEqual(faces(again), faces(document));
      assert.equal(again.layout().text, laid);
    }
    assert.deepEqual(['@', 'unit', HALF, ' '.repeat(65537)].map((text) => library.open(text).layout().refusal.number), [3, 3, 3, 3]);
  });
} else {
  console.log('left out: layouts, as the wasm has no call for them');
  await test('a call that is missing is named', () => {
    assert.throws(() => library.open('').layout(), { name: 'Error', message: 'layout: this module has no call spoonharbor_layout' });
  });
}

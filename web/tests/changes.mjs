// Random changes in units of UTF-16, each held against a fresh reading: the call's own, of bytes that node encodes.
import assert from 'node:assert/strict';
import { readFileSync } from 'node:fs';
import { Dice, module, root, test, wasm } from './check.mjs';
import { Lent } from './lent.mjs';

const { load } = await module();
const library = await load(wasm());
const lent = new Lent(wasm());
const examples = ['dome_event', 'encoder_timing', 'guarded_counter'].map((name) => readFileSync(`${root}/examples/${name}.snx`, 'utf8'));

/** What is typed: parts of programs, of comments and of strings, characters of every size, and halves of pairs. */
const PIECES = [
  '', '', ' ', '\n', ';', '{', '}', '(', ')', '.', '=', '+', '*', '/', '"', '\\', '//', '/*', '*/', '<', '<<', '0x', '-1', '12',
  '9223372036854775808', 'x', 'unit u {', 'reg a = 1;', 'if guard (a) {', 'else {', 'section "xdp";', 'map m { type: .ringbuf; max: 8; }',
  'event e { a: bytes[4]; }', '@', '\0', '\r\n',
  '°', 'é', '€', '\u2028', '\ufeff', '😀', '🔭', '\ud83d', '\ude00', '\udfff',
];

const rows = new Uint32Array(65537 * 8);
const nodes = new Uint32Array(65537 * 8);

/** The first half of a pair that stands alone; -1 if there is none. */
function loneHalf(text) {
  return text.search(/[\ud800-\udbff](?![\udc00-\udfff])|(?<![\ud800-\udbff])[\udc00-\udfff]/);
}

/** Holds a document against what the calls tell of its text. */
function hold(document, text, dice) {
  assert.equal(document.text, text);
  const half = loneHalf(text);
  const bytes = new Uint8Array(Buffer.from(text));
  const { refusal } = document;
  assert.equal(document.byteLength, bytes.length);
  if (bytes.length > 65536 || half >= 0) {
    const number = bytes.length > 65536 ? 1 : 2;
    assert.deepEqual([document.rowCount, document.tree, refusal.number], [0, null, number]);
    if (number === 2) assert.deepEqual([refusal.offset, refusal.byte], [half, Buffer.byteLength(text.slice(0, half))]);
    return number;
  }
  const room = (bytes.length + 1) * 8;
  const table = lent.told('scan', bytes, bytes.length, rows.subarray(0, room), room);
  const size = table[6] * 8;
  assert.equal(Buffer.compare(Buffer.from(document.rowWords().buffer), Buffer.from(rows.buffer, 0, size * 4)), 0);
  const told = lent.told('parse', bytes, bytes.length, rows.subarray(0, size), size, table, nodes.subarray(0, size), size);
  if (told[0] === 0) {
    assert.equal(refusal, null);
    assert.equal(Buffer.compare(Buffer.from(document.tree.nodeWords().buffer), Buffer.from(nodes.buffer, 0, told[6] * 32)), 0);
  } else {
    assert.equal(document.tree, null);
    assert.deepEqual([refusal.number, refusal.byte, refusal.line, refusal.column], [...told.slice(0, 4)]);
    assert.equal(Buffer.byteLength(text.slice(0, refusal.offset)), refusal.byte);
    assert.deepEqual(refusal.fitting?.words ?? [refusal.first, 0], [told[4], told[5]]);
  }
  if (document.rowCount > 0) {
    const row = document.row(dice.below(document.rowCount));
    assert.equal(Buffer.byteLength(text.slice(0, row.start)), row.byteStart);
    assert.equal(Buffer.byteLength(text.slice(0, row.end)), row.byteEnd);
  }
  return told[0];
}

/** A change of a text: what goes, and what comes. */
function changeOf(text, longest, pieces, dice) {
  const start = dice.below(text.length + 1);
  const most = text.length > longest ? text.length - start : dice.one([0, 0, 1, 2, 8, 40]);
  return { start, end: Math.min(text.length, start + dice.below(most + 1)), piece: dice.one(pieces) };
}

/**
 * So many changes, in chains of fifty from one of some texts on, which stay shorter than a length. Every other change
 * undoes one, so that texts stay near to programs. Gives back how often each number was told.
 */
function chains(seed, count, firsts, longest, pieces) {
  const dice = new Dice(seed);
  const told = new Map();
  let [document, text, undone] = [];
  for (let at = 0; at < count; at++) {
    if (at % 50 === 0) {
      text = dice.one(firsts);
      document = library.open(text);
      undone = [];
    }
    const isUndone = undone.length > 0 && dice.below(2) === 0;
    const { start, end, piece } = isUndone ? undone.pop() : changeOf(text, longest, pieces, dice);
    if (!isUndone) undone.push({ start, end: start + piece.length, piece: text.slice(start, end) });
    document.replace(start, end, piece);
    text = text.slice(0, start) + piece + text.slice(end);
    const number = hold(document, text, dice);
    told.set(number, (told.get(number) ?? 0) + 1);
  }
  return [...told].sort(([a], [b]) => a - b).map(([number, times]) => `${times} with ${number}`).join(', ');
}

const SMALL = [
  '', 'x', '"🔭"', '// 0.1°\n', 'unit u { x += -1; }', 'unit u { section "kprobe/é"; license "GPL"; }',
  'map m { type: .hash; key: u32; value: u64; max: 1 << 4; }', 'event e { a: bytes[4]; b: u32[2]; c: i64; } // 🔭 €',
  'unit u { if guard (a) { b.c(1, *d); } else { return (e + 2) * 3; } }', '/* é */ unit u { heap h = r.reserve(8); }',
];

await test('10,000 changes of small texts are fresh readings', () => chains(1, 10000, SMALL, 160, PIECES));

await test('3,000 changes of programs are fresh readings', () => chains(2, 3000, examples, 3000, PIECES));

await test('400 changes around the longest text are fresh readings', () => {
  const long = examples[0].repeat(Math.floor(65536 / Buffer.byteLength(examples[0])));
  const piece = '// 0.1° '.repeat(30);
  const longest = long + ' '.repeat(65536 - Buffer.byteLength(long));
  return chains(3, 400, [long, longest], 66000, [piece, '', ' ', '\n', 'x = 1;', '/*', '*/', '🔭', 'é']);
});

// How much of the wasm's stack is used where most is: 64 constructs open, and calls over small and long texts.
import assert from 'node:assert/strict';
import { readFileSync } from 'node:fs';
import { root, test, wasm } from './check.mjs';
import { calls, Lent } from './lent.mjs';

const MARK = 0xa5;

const lent = new Lent(wasm());
const top = lent.exports.__stack_pointer.value;
const stack = () => new Uint8Array(lent.exports.memory.buffer, 0, top);

/** How many bytes of the stack a call writes into. */
function used(name, ...given) {
  stack().fill(MARK);
  lent.call(name, ...given, new Uint32Array(8));
  const first = stack().findIndex((byte) => byte !== MARK);
  return first < 0 ? 0 : top - first;
}

/** Texts that are as deep as a text may be, one for each construct and one of all. */
function deepTexts() {
  const around = (open, inner, close) => `unit u { x = ${open.repeat(64)}${inner}${close.repeat(64)}; }`;
  return [
    around('(', 'a', ')'), around('*', 'a', ''), around('a.f(1 + ', '2', ')'),
    `unit u { ${'if guard (a) {'.repeat(64)} b; ${'}'.repeat(64)} }`,
    `unit u { ${'if guard (a) { } else {'.repeat(64)} b; ${'}'.repeat(64)} }`,
    `unit u { ${'if guard (a) {'.repeat(16)} x = ${'(*a.f('.repeat(16)}1${'))'.repeat(16)}; ${'}'.repeat(16)} }`,
  ];
}

await test('the stack is enough for every call', () => {
  const most = new Map();
  const note = (name, ...given) => most.set(name, Math.max(most.get(name) ?? 0, used(name, ...given)));
  const texts = [...deepTexts(), '', '@', readFileSync(`${root}/examples/dome_event.snx`, 'utf8').repeat(60)];
  for (const text of texts) {
    const bytes = new Uint8Array(Buffer.from(text));
    const n = bytes.length;
    const [rows, other, nodes] = [0, 0, 0].map(() => new Uint32Array((n + 1) * 8));
    const [file, moved] = [0, 0].map(() => new Uint8Array(512 * (2 + (n + 15) / 15 | 0)));
    const room = rows.length;
    const table = lent.told('scan', bytes, n, rows, room);
    note('scan', bytes, n, rows, room);
    note('spelling', bytes, n, rows, room, table, 0);
    const told = lent.told('parse', bytes, n, rows, room, table, nodes, room);
    note('parse', bytes, n, rows, room, table, nodes, room);
    note('change', rows, room, table, n >> 1, n >> 1, 0, bytes, n, other, room);
    note('edit', rows, room, table, 0, 0, 0, 0, bytes, n, other, room);
    note('restart', rows, room, table, n >> 1);
    const stored = lent.told('store', rows, room, table, file, file.length);
    note('store', rows, room, table, file, file.length);
    note('load', file, stored[7], other, room);
    note('load_beside', bytes, n, file, stored[7], other, room);
    note('move', bytes, n, file, stored[7], 2, moved, moved.length);
    note('mend', bytes, n, 1, moved, moved.length, 0, other, room);
    if (calls.has('spoonharbor_layout')) {
      const scratch = new Uint32Array(524296);
      note('layout', bytes, n, rows, room, table, nodes, room, told[0] === 0 ? told[6] : 0, scratch, new Uint8Array(65536), 65536);
    }
  }
  assert.deepEqual(deepTexts().map((text) => {
    const bytes = new Uint8Array(Buffer.from(text));
    const [rows, nodes] = [0, 0].map(() => new Uint32Array((bytes.length + 1) * 8));
    const table = lent.told('scan', bytes, bytes.length, rows, rows.length);
    return lent.told('parse', bytes, bytes.length, rows, rows.length, table, nodes, nodes.length)[0];
  }), [0, 0, 0, 0, 0, 0], 'the texts are programs');
  const measured = [...most].sort((a, b) => b[1] - a[1]);
  assert.ok(measured[0][1] > 0 && measured[0][1] <= top / 2, `${measured[0]} of ${top}`);
  return measured.slice(0, 4).map(([name, size]) => `${name} ${size}`).join(', ') + ` of ${top} bytes`;
});

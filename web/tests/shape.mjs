// What the wasm and the module are: their size, and what the header and the types declare, and nothing besides.
import assert from 'node:assert/strict';
import { readFileSync } from 'node:fs';
import { built, module, root, test, wasm } from './check.mjs';
import { calls } from './lent.mjs';

/** The most bytes of the wasm and the module together. */
const MOST = 120000;

/** The functions that a module exports, with their types: parts 1, 3 and 7 of a module, as WebAssembly writes them. */
function exported(bytes) {
  let at = 8;
  const number = () => {
    let value = 0;
    for (let shift = 0; ; shift += 7) {
      const byte = bytes[at++];
      value |= (byte & 127) << shift;
      if (byte < 128) return value;
    }
  };
  const many = (read) => Array.from({ length: number() }, read);
  const types = [];
  const own = [];
  const found = new Map();
  const readers = {
    1: () => many(() => (at++, types.push([many(() => bytes[at++]), many(() => bytes[at++])]))),
    3: () => own.push(...many(number)),
    7: () => many(() => {
      const size = number();
      const name = String.fromCharCode(...bytes.subarray(at, at += size));
      const kind = bytes[at++];
      const index = number();
      if (kind === 0) found.set(name, types[own[index]]);
    }),
  };
  while (at < bytes.length) {
    const section = bytes[at++];
    const end = number() + at;
    readers[section]?.();
    at = end;
  }
  return found;
}

const I32 = 0x7f;
const I64 = 0x7e;

await test('the wasm has the calls that the header declares, with its types and no others', () => {
  const found = exported(wasm());
  const typed = ({ gives, types }) => [types.map((type) => type === 'length' ? I64 : I32), gives === null ? [] : [I32]];
  const declared = new Map([...calls].map(([name, call]) => [name, typed(call)]));
  assert.deepEqual(new Map([...found].sort()), new Map([...declared].sort()));
  return `${found.size} calls`;
});

await test('the wasm needs nothing', () => {
  assert.deepEqual(WebAssembly.Module.imports(new WebAssembly.Module(wasm())), []);
});

await test('the wasm and the module are small', () => {
  const sizes = ['spoonharbor.wasm', 'spoonharbor.js'].map((name) => readFileSync(`${built}/${name}`).length);
  const sum = sizes[0] + sizes[1];
  assert.ok(sum < MOST, `${sum} bytes`);
  return `${sizes[0]} and ${sizes[1]} bytes`;
});

await test('the module has what its types declare', async () => {
  const types = readFileSync(`${built}/spoonharbor.d.ts`, 'utf8');
  const declared = [...types.matchAll(/^export declare (?:const|function|class) (\w+)/gm)].map(([, name]) => name);
  const there = await module();
  assert.deepEqual(Object.keys(there).sort(), declared.sort());
  for (const [, name, body] of types.matchAll(/^export declare class (\w+) \{\n([^]*?)\n\}/gm)) {
    const all = [...body.matchAll(/^ {2}(?:readonly )?(\w+)[(:]/gm)].map(([, member]) => member);
    const members = all.filter((member) => member !== 'constructor');
    const own = Object.getOwnPropertyNames(there[name].prototype).filter((member) => member !== 'constructor');
    assert.deepEqual(own.sort(), members.sort(), name);
  }
});

await test('the numbers are those of the header', async () => {
  const there = await module();
  const header = readFileSync(`${root}/include/spoonharbor.h`, 'utf8').replace(/\/\*[^]*?\*\//g, '');
  const named = [...header.matchAll(/^ {4}SH_(\w+) = (\d+)/gm)];
  const values = Object.values(there).filter((list) => typeof list === 'object').flatMap((list) => Object.entries(list));
  for (const [, name, value] of named) {
    const own = values.some(([key, number]) => name.endsWith(key) && number === Number(value));
    assert.ok(own, `SH_${name}`);
  }
  const { Form, LONGEST_TEXT, NodeKind, RefusalNumber, RowKind } = there;
  const some = [RowKind.SEMICOLON, NodeKind.PROGRAM, RefusalNumber.WANTED, Form.SHORT, LONGEST_TEXT];
  assert.deepEqual(some, [32, 29, 21, 2, 65536]);
  return `${named.length} names`;
});

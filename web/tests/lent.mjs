// The wasm's calls as the header declares them, over memory that is lent word for word and byte for byte.
import { readFileSync } from 'node:fs';
import { root } from './check.mjs';

const header = readFileSync(`${root}/include/spoonharbor.h`, 'utf8').replace(/\/\*[^]*?\*\//g, '');

/** The header's calls: for each name what it gives back and its parameters, `pointer`, `length` or `word`. */
export const calls = new Map([...header.matchAll(/^(void|uint32_t) (spoonharbor_\w+)\(([^)]*)\);/gm)].map(([, gives, name, parameters]) => {
  const types = parameters.split(',').map((parameter) => {
    if (/[*[]/.test(parameter)) return 'pointer';
    if (/size_t/.test(parameter)) return 'length';
    if (/uint32_t/.test(parameter)) return 'word';
    return parameter.trim() === 'void' ? null : `no type is known: ${parameter}`;
  });
  return [name, { gives: gives === 'void' ? null : 'word', types: types.filter((type) => type !== null) }];
}));

/** An instance of the module, over memory that begins behind its own. */
export class Lent {
  constructor(wasm) {
    this.exports = new WebAssembly.Instance(new WebAssembly.Module(wasm), {}).exports;
    this.base = this.exports.memory.buffer.byteLength;
    this.exports.memory.grow(128);
  }

  /** Makes a call: arrays are lent for its pointers, copied in before it and out after it. Gives back what it gives. */
  call(name, ...given) {
    const { types } = calls.get(`spoonharbor_${name}`);
    if (types.length !== given.length) throw new Error(`${name} has ${types.length} parameters`);
    const bytes = new Uint8Array(this.exports.memory.buffer);
    const lent = [];
    let end = this.base;
    const words = given.map((value, at) => {
      if (types[at] === 'word') return value;
      if (types[at] === 'length') return BigInt(value);
      const own = new Uint8Array(value.buffer, value.byteOffset, value.byteLength);
      const here = end;
      bytes.set(own, here);
      lent.push([own, here]);
      end += Math.ceil(own.length / 16) * 16 + 16;
      return here;
    });
    const given_back = this.exports[`spoonharbor_${name}`](...words);
    for (const [own, here] of lent) own.set(bytes.subarray(here, here + own.length));
    return given_back;
  }

  /** The eight words that a call tells. */
  told(name, ...given) {
    const answer = new Uint32Array(8);
    this.call(name, ...given, answer);
    return answer;
  }
}

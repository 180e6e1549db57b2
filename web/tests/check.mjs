// Tests with a name and a time each. A file of tests ends with status 1 if one of them fails.
import { readFileSync } from 'node:fs';
import { dirname } from 'node:path';
import { fileURLToPath } from 'node:url';

/** The repository, and what web/build has built. */
export const root = dirname(dirname(dirname(fileURLToPath(import.meta.url))));
export const built = process.env.SPOONHARBOR_WEB ?? `${root}/target/web`;

export const wasm = () => readFileSync(`${built}/spoonharbor.wasm`);
export const module = () => import(`${built}/spoonharbor.js`);

export async function test(name, run) {
  const began = performance.now();
  try {
    const said = await run();
    console.log(`ok: ${name}${said ? `: ${said}` : ''} (${((performance.now() - began) / 1000).toFixed(1)} s)`);
  } catch (error) {
    console.log(`FAILED: ${name}: ${error.stack}`);
    process.exitCode = 1;
  }
}

/** Numbers that look random and are always the same ones. */
export class Dice {
  #state;

  constructor(seed) {
    this.#state = seed >>> 0;
  }

  /** A number from 0 on, below a bound. */
  below(bound) {
    this.#state = this.#state + 0x6d2b79f5 >>> 0;
    let x = this.#state;
    x = Math.imul(x ^ x >>> 15, x | 1);
    x ^= x + Math.imul(x ^ x >>> 7, x | 61);
    return Math.floor(((x ^ x >>> 14) >>> 0) / 4294967296 * bound);
  }

  one(list) {
    return list[this.below(list.length)];
  }
}

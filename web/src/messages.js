import { fieldTexts, foundTexts, refusalTexts, setTexts, spellingTexts, wantedTexts } from './texts.js';

// Refusals and kinds in words. The words are the Rust crate's.

/** What a refusal's number means, with an example on either side of its edge; null if no call gives the number. */
export function explain(number) {
  const texts = refusalTexts[number];
  if (texts === undefined) return null;
  const { title, meaning, refused, fine } = texts;
  return { number, title, meaning, refused, fine };
}

/** A refusal in words, without its place. */
export function say(refusal) {
  const texts = refusalTexts[refusal.number];
  if (texts === undefined) return `refused with ${refusal.number}`;
  const told = {
    fitting: () => sayKinds(refusal.fitting),
    each: () => sayEach(refusal.fitting),
    found: () => foundTexts[refusal.found] ?? 'another kind',
    field: () => fieldTexts[refusal.first] ?? refusal.first,
    first: () => refusal.first,
  };
  return texts.said.replace(/\{(\w+)\}/g, (_, name) => told[name]());
}

/** A set of kinds as people say it: `';', '.' or an operator`. */
export function sayKinds(set) {
  return setTexts[set.words.join(',')] ?? sayEach(set);
}

/** A set of kinds, each by itself. */
export function sayEach(set) {
  const names = set.kinds().map((kind) => wantedTexts[kind] ?? 'another kind');
  const last = names.pop() ?? 'nothing';
  return names.length === 0 ? last : `${names.join(', ')} or ${last}`;
}

/** What a row of a kind is called: `';'`, `number`. */
export function kindName(kind) {
  return foundTexts[kind] ?? 'another kind';
}

/** How every row of a kind is spelt; null where the text decides it. */
export function spellingOf(kind) {
  return spellingTexts[kind] ?? null;
}

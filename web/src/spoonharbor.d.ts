// Spoonharbor for browsers and node: rows, tree and refusals of Solnix probes, by the proved module.
//
//     import { load, say } from './spoonharbor.js';
//     const library = await load();
//     const document = library.open('unit u { x = 1 }');
//     say(document.refusal);              // "expected ';', '.' or an operator, found '}'"
//     document.replace(14, 14, ';');
//     document.tree.nodeCount;            // 5
//
// Offsets count units of UTF-16, as strings do, unless their name says byte. Lines and columns count from 1, and
// columns count bytes, as the library tells them. Nothing is thrown but for misuse: an argument of another type
// (TypeError), or a range that is no part of the text (RangeError).

/** Starts the library with the bytes of spoonharbor.wasm or a compiled module; without them the file beside is read. */
export declare function load(source?: BufferSource | WebAssembly.Module): Promise<Library>;

/** The library, started. Its documents share its memory and take turns in it, so any number may be open. */
export declare class Library {
  private constructor();
  /** The version, as `major.minor.patch`. */
  readonly version: string;
  /** Whether the module has a call, by its name behind `spoonharbor_`, as `layout`. */
  has(call: string): boolean;
  /** Opens a text. Every text is held, whatever it says. */
  open(text: string): Document;
  /**
   * Opens a text with the file that was stored for it, in either form. The document is open in any case: with the
   * file's rows if the file is taken, and else read afresh, with the file's refusal beside it. A file of another text
   * of the same length may be taken; `refresh` tells.
   */
  openStored(text: string, file: Uint8Array): { document: Document; refusal: Refusal | null };
  /** Bytes as a text, or why they are none: 2 with its place, or 1 if they are too many besides. */
  decode(bytes: Uint8Array): { text: string; refusal: null } | { text: null; refusal: Refusal };
}

/** A text with its rows and its tree, which follow every change: they are those of a fresh reading. */
export declare class Document {
  private constructor();
  readonly text: string;
  /** How many bytes the text has in UTF-8. */
  readonly byteLength: number;
  /** How many rows there are. A text that is too long (1) or no Unicode (2) has none. */
  readonly rowCount: number;
  /** The row with a number, counted from 0; null if there is none. */
  row(number: number): Row | null;
  /** All rows, as they are now. */
  rows(): Row[];
  /** A copy of the rows' words, eight to a row as in the C header, with offsets in bytes. */
  rowWords(): Uint32Array;
  /** The number of the first row that ends behind an offset: the one that has it, or the next one; else rowCount. */
  rowAfter(offset: number): number;
  /** How a row is spelt; the empty text for the end, and for a row that is not there. */
  spelling(number: number): string;
  /** How many comments stand between the rows. */
  readonly comments: number;
  /** The refusal in which the rows end: 11 to 17, or 1 or 2 if there are no rows; null if the whole text scans. */
  readonly scanRefusal: Refusal | null;
  /** The first refusal of the text: that of the rows, or one of 21 to 32; null if the text is a program. */
  readonly refusal: Refusal | null;
  /** The program's tree, or null if the text is no program. It stays as it is when the text changes. */
  readonly tree: Tree | null;
  /** Why the file was not taken with which the document was opened; null if it was, or if there was none. */
  readonly storedRefusal: Refusal | null;
  /**
   * Puts a text in the place of the units from start to end. Every text is held: one of over 65,536 bytes has no rows
   * and is refused with 1, and one with half of a surrogate pair is refused with 2, until a change mends it.
   */
  replace(start: number, end: number, text: string): void;
  /** Reads the whole text afresh and says whether the rows were those of a fresh reading. */
  refresh(): boolean;
  /** The rows as a file of form 1, or of form 2; or why they cannot be stored. */
  store(form?: 1 | 2): { file: Uint8Array; refusal: null } | { file: null; refusal: Refusal };
  /**
   * The text laid out: the same tree in the library's own layout, which has no comments. Refused with 3 if the text is
   * no program, and with 4 if its layout is longer than a text may be. It needs `library.has('layout')`.
   */
  layout(): { text: string; refusal: null } | { text: null; refusal: Refusal };
  /** The unit at which a byte's character starts. */
  unitAt(byte: number): number;
  /** The byte at which the character of a unit starts. */
  byteAt(unit: number): number;
}

/** A token with its place. */
export interface Row {
  /** One of {@link RowKind}. */
  readonly kind: number;
  readonly start: number;
  readonly end: number;
  readonly byteStart: number;
  readonly byteEnd: number;
  readonly line: number;
  readonly column: number;
  /** A number's value; 0 of any other row. */
  readonly value: bigint;
  /** How many comments stand between the row and the one in front of it. */
  readonly comments: number;
}

/** A program's tree: nodes in the order of the C header, children in front of their parent, the program last. */
export declare class Tree {
  private constructor();
  readonly nodeCount: number;
  /** The program's number. */
  readonly root: number;
  /** The node with a number, counted from 0; null if there is none. */
  node(number: number): Node | null;
  /** The numbers of a node's children, in the text's order. */
  children(number: number): number[];
  /** Every node's number, each in front of its children as in an outline, and how deep each of these stands. */
  outline(): { nodes: Uint32Array; depths: Uint32Array };
  /** A copy of the nodes' words, eight to a node as in the C header. */
  nodeWords(): Uint32Array;
}

export interface Node {
  /** One of {@link NodeKind}. */
  readonly kind: number;
  /** The number of the row at which it stands, as the C header says by kind. */
  readonly place: number;
  /** The number of the row that names it, or null. */
  readonly name: number | null;
  readonly childCount: number;
  /** Four words that the C header gives by kind. */
  readonly facts: readonly number[];
}

/** Why a text or a file is refused, and where. */
export interface Refusal {
  /** One of {@link RefusalNumber} or {@link FileRefusalNumber}. */
  readonly number: number;
  /** Where, in units of UTF-16; 0 if it is about no place. */
  readonly offset: number;
  readonly byte: number;
  readonly line: number;
  readonly column: number;
  /** Exactly the kinds that would have fitted, where the refusal tells them: 21, 22, 23, 25 and 30. */
  readonly fitting: KindSet | null;
  /** The kind that was found, of 21. */
  readonly found: number | null;
  /** What else is told: the field of 29, the block of 41. */
  readonly first: number | null;
}

/** A number's meaning: a few words, when it is told, an example that gets it, and one close by that does not. */
export interface Meaning {
  readonly number: number;
  readonly title: string;
  readonly meaning: string;
  readonly refused: string;
  readonly fine: string;
}

/** A set of row kinds. */
export declare class KindSet {
  constructor(low: number, high: number);
  has(kind: number): boolean;
  /** The kinds in it, in the order of their numbers. */
  kinds(): number[];
  /** The two words in which it is told: kinds 0 to 31, and from 32 on. */
  readonly words: [number, number];
}

/** What a refusal's number means, with an example on either side of its edge; null if no call gives the number. */
export declare function explain(number: number): Meaning | null;
/** A refusal in words, without its place. */
export declare function say(refusal: Refusal): string;
/** A set of kinds as people say it: `';', '.' or an operator`. */
export declare function sayKinds(set: KindSet): string;
/** A set of kinds, each by itself. */
export declare function sayEach(set: KindSet): string;
/** What a row of a kind is called: `';'`, `number`. */
export declare function kindName(kind: number): string;
/** How every row of a kind is spelt; null where the text decides it. */
export declare function spellingOf(kind: number): string | null;

/** A node's name word where it has none; the word of a unit's licence has it too. */
export declare const MISSING: 4294967295;

// The numbers of include/spoonharbor.h.

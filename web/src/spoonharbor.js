import { AnswerWord, FileRefusalNumber, Form, LONGEST_TEXT, MOST_STORED_ROWS } from './numbers.js';
import { NodeWord, RefusalNumber, RowKind, RowWord } from './numbers.js';

// The library: texts, their rows and trees, and changes, over the proved module's calls.

/** Bytes of a word. */
const WORD = 4;

/** Bytes of the rows, or of the nodes, of the longest text. */
const ROW_ROOM = (LONGEST_TEXT + 1) * RowWord.WORDS * WORD;

/** The same in words, as it is lent. */
const ROW_ROOM_WORDS = BigInt(ROW_ROOM / WORD);

/** Bytes of a file's block, and of the longest file: 15 rows to a block behind the first. */
const BLOCK = 512;
const LONGEST_FILE = BLOCK * (1 + Math.ceil(MOST_STORED_ROWS / 15));

/** The refusals that tell kinds. */
const TELLS_KINDS = new Set([
  RefusalNumber.WANTED, RefusalNumber.NOT_TOP_LEVEL, RefusalNumber.NOT_MAP_FIELD, RefusalNumber.NOT_TYPE,
  RefusalNumber.NOT_EVENT_TYPE,
]);

const NO_ROWS = new Uint32Array(0);

const encoder = new TextEncoder();
const decoder = new TextDecoder('utf-8', { fatal: true, ignoreBOM: true });

/**
 * Starts the library.
 *
 * @param source the bytes of `spoonharbor.wasm`, or a compiled module; without it the file beside this one is read
 */
export async function load(source) {
  const given = source ?? await beside('spoonharbor.wasm');
  const isModule = given instanceof WebAssembly.Module;
  if (!isModule && !(given instanceof ArrayBuffer) && !ArrayBuffer.isView(given)) {
    throw new TypeError('load: the source must be the bytes of spoonharbor.wasm or a compiled module');
  }
  const module = isModule ? given : await WebAssembly.compile(given);
  return new Library(await WebAssembly.instantiate(module, {}));
}

/** The bytes of a file that stands beside this one, in a browser and in node. */
async function beside(name) {
  const url = new URL(name, import.meta.url);
  if (url.protocol === 'file:' && typeof process === 'object') {
    return (await import('node:fs/promises')).readFile(url);
  }
  return (await fetch(url)).arrayBuffer();
}

/** The module's calls, and its memory, in which each thing that is lent has its place. */
class Room {
  constructor(instance) {
    const { memory, ...calls } = instance.exports;
    this.calls = calls;
    this.end = memory.buffer.byteLength;
    // One byte more than a text may have, so that a text that is too long can be lent as one.
    this.text = this.place(LONGEST_TEXT + 1);
    this.rows = this.place(ROW_ROOM);
    this.spare = this.place(ROW_ROOM);
    this.nodes = this.place(ROW_ROOM);
    this.table = this.place(AnswerWord.WORDS * WORD);
    this.answer = this.place(AnswerWord.WORDS * WORD);
    // One byte more than the longest file, for the same reason.
    this.file = this.place(LONGEST_FILE + 1);
    this.moved = this.place(LONGEST_FILE);
    this.scratch = this.place(ROW_ROOM);
    this.laid = this.place(LONGEST_TEXT);
    memory.grow(Math.ceil((this.end - memory.buffer.byteLength) / 65536));
    this.bytes = new Uint8Array(memory.buffer);
    this.words = new Uint32Array(memory.buffer);
    /** The document whose text and rows stand in memory, and what takes them out. */
    this.guest = null;
    this.leave = null;
  }

  /** Gives the memory to a document, or to none, with what is to be done before another one gets it. */
  enter(guest, leave) {
    this.leave?.();
    this.guest = guest;
    this.leave = leave;
  }

  /** A place for so many bytes behind those that have one. */
  place(bytes) {
    const here = this.end;
    this.end += Math.ceil(bytes / 16) * 16;
    return here;
  }

  /** Makes a call. Lengths are 64-bit in the module, as it was made for 64-bit machines. */
  call(name, ...lent) {
    this.calls[`spoonharbor_${name}`](...lent, this.answer);
    return this.words.slice(this.answer / WORD, this.answer / WORD + AnswerWord.WORDS);
  }

  lendTable(table) {
    this.words.set(table, this.table / WORD);
  }

  /** Writes a text from an offset on; gives back how many bytes it has. */
  writeText(text, at = 0) {
    return encodeInto(text, this.bytes.subarray(this.text + at, this.text + LONGEST_TEXT));
  }

  scan(length) {
    return this.call('scan', this.text, BigInt(length), this.rows, ROW_ROOM_WORDS);
  }
}

/** The library, started. Documents of one library share its memory and take turns in it. */
export class Library {
  #room;

  /** Use {@link load}. */
  constructor(instance) {
    this.#room = new Room(instance);
  }

  /** The version, as `major.minor.patch`. */
  get version() {
    const version = this.#room.calls.spoonharbor_version();
    return [version >> 16, version >> 8 & 255, version & 255].join('.');
  }

  /** Whether the module has a call, by its name behind `spoonharbor_`, as `layout`. */
  has(call) {
    return typeof this.#room.calls[`spoonharbor_${call}`] === 'function';
  }

  /** Opens a text. */
  open(text) {
    asText(text, 'open');
    return new Document(this.#room, text, null);
  }

  /**
   * Opens a text with the file that was stored for it, in either form. The document is open in any case: with the
   * file's rows if the file is taken, and else read afresh, with the file's refusal beside it.
   */
  openStored(text, file) {
    asText(text, 'openStored');
    asBytes(file, 'openStored');
    const document = new Document(this.#room, text, file);
    return { document, refusal: document.storedRefusal };
  }

  /** Bytes as a text, or why they are none: 2 with its place, or 1 if they are too many besides. */
  decode(bytes) {
    asBytes(bytes, 'decode');
    try {
      return { text: decoder.decode(bytes), refusal: null };
    } catch {
      const room = this.#room;
      room.enter(null, null);
      const lent = bytes.subarray(0, LONGEST_TEXT + 1);
      room.bytes.set(lent, room.text);
      const told = room.scan(lent.length);
      const front = decoder.decode(bytes.subarray(0, told[AnswerWord.OFFSET]));
      return { text: null, refusal: refusalOf(told, front.length) };
    }
  }
}

/** A text with its rows and its tree, which follow every change of the text. */
export class Document {
  #room;
  #text;
  /** How many bytes the text has in UTF-8. */
  #length = 0;
  /** The eight words that were told of the rows. */
  #told;
  /** The rows, while another document's stand in memory. */
  #saved = NO_ROWS;
  /** What the parse told, once it was asked: a tree or a refusal. */
  #parsed = null;
  #offsets = null;
  #storedRefusal = null;

  /** Use {@link Library.open}. */
  constructor(room, text, file) {
    this.#room = room;
    this.#text = text;
    this.#enter();
    if (file === null || !this.#readStored(file)) this.#read();
  }

  /** The text. */
  get text() {
    return this.#text;
  }

  /** How many bytes the text has in UTF-8. */
  get byteLength() {
    return this.#length;
  }

  /** How many rows there are. A text that is too long, or not well formed, has none. */
  get rowCount() {
    return this.#isRead ? this.#told[AnswerWord.COUNT] : 0;
  }

  /** The row with a number, or null. */
  row(number) {
    if (!Number.isInteger(number) || number < 0 || number >= this.rowCount) return null;
    this.#enter();
    const words = this.#room.words;
    const at = this.#room.rows / WORD + number * RowWord.WORDS;
    const kind = words[at + RowWord.KIND];
    const byteStart = words[at + RowWord.START];
    const byteEnd = words[at + RowWord.END];
    return {
      kind,
      start: this.unitAt(byteStart),
      end: this.unitAt(byteEnd),
      byteStart,
      byteEnd,
      line: words[at + RowWord.LINE],
      column: words[at + RowWord.COLUMN],
      value: kind === RowKind.NUMBER ? signed(words[at + RowWord.VALUE_LOW], words[at + RowWord.VALUE_HIGH]) : 0n,
      comments: words[at + RowWord.COMMENTS],
    };
  }

  /** All rows, as they are now. */
  rows() {
    return Array.from({ length: this.rowCount }, (_, number) => this.row(number));
  }

  /** A copy of the rows' words, eight to a row as in the C header, with offsets in bytes. */
  rowWords() {
    this.#enter();
    const from = this.#room.rows / WORD;
    return this.#room.words.slice(from, from + this.rowCount * RowWord.WORDS);
  }

  /** The number of the first row that ends behind an offset: the one that has it, or the next one; else rowCount. */
  rowAfter(offset) {
    this.#enter();
    const byte = this.byteAt(offset);
    const ends = this.#room.rows / WORD + RowWord.END;
    let low = 0;
    let high = this.rowCount;
    while (low < high) {
      const middle = low + high >> 1;
      if (this.#room.words[ends + middle * RowWord.WORDS] <= byte) low = middle + 1;
      else high = middle;
    }
    return low;
  }

  /** How a row is spelt; the empty text for the end and for a row that is not there. */
  spelling(number) {
    const row = this.row(number);
    return row === null ? '' : this.#text.slice(row.start, row.end);
  }

  /** How many comments stand between the rows. */
  get comments() {
    this.#enter();
    const from = this.#room.rows / WORD + RowWord.COMMENTS;
    let count = 0;
    for (let row = 0; row < this.rowCount; row++) count += this.#room.words[from + row * RowWord.WORDS];
    return count;
  }

  /** The refusal in which the rows end: 11 to 17, or 1 or 2 if there are no rows; null if the whole text scans. */
  get scanRefusal() {
    return refusalOf(this.#told, this.unitAt(this.#told[AnswerWord.OFFSET]));
  }

  /** The first refusal of the text: that of the rows, or one of 21 to 32; null if the text is a program. */
  get refusal() {
    return this.scanRefusal ?? this.#parse().refusal;
  }

  /** The program's tree, or null if the text is no program. It stays as it is when the text changes. */
  get tree() {
    return this.#told[AnswerWord.NUMBER] === 0 ? this.#parse().tree : null;
  }

  /** Why the file was not taken with which the document was opened; null if it was, or if there was none. */
  get storedRefusal() {
    return this.#storedRefusal;
  }

  /**
   * Puts a text in the place of the units from start to end. Every text is held: one of over 65,536 bytes has no rows
   * and is refused with 1, and one with half of a surrogate pair is refused with 2, until a change mends it.
   */
  replace(start, end, text) {
    asText(text, 'replace');
    const old = this.#text;
    if (!Number.isInteger(start) || !Number.isInteger(end) || start < 0 || start > end || end > old.length) {
      throw new RangeError(`replace: ${start} to ${end} is no part of a text of ${old.length} units`);
    }
    this.#enter();
    const change = this.#widened(start, end, text);
    this.#text = old.slice(0, start) + text + old.slice(end);
    this.#parsed = null;
    if (!this.#patch(change)) this.#read();
  }

  /**
   * Reads the whole text afresh and says whether the rows were those of a fresh reading. They were unless the document
   * was opened with a file that is not the text's.
   */
  refresh() {
    const [told, words] = [this.#told, this.rowWords()];
    this.#read();
    const isSame = (ours, theirs) => ours.length === theirs.length && ours.every((word, at) => word === theirs[at]);
    return isSame(told, this.#told) && isSame(words, this.rowWords());
  }

  /** The rows as a file of form 1, or of form 2; or why they cannot be stored. */
  store(form = Form.FULL) {
    if (!this.#isRead) return { file: null, refusal: this.scanRefusal };
    this.#enter();
    const room = this.#room;
    room.lendTable(this.#told);
    let told = room.call('store', room.rows, this.#rowWordCount, room.table, room.file, BigInt(LONGEST_FILE));
    let at = room.file;
    if (told[AnswerWord.NUMBER] === 0 && form !== Form.FULL) {
      const length = BigInt(told[AnswerWord.LENGTH]);
      told = room.call('move', room.text, BigInt(this.#length), room.file, length, form, room.moved, BigInt(LONGEST_FILE));
      at = room.moved;
    }
    if (told[AnswerWord.NUMBER] !== 0) return { file: null, refusal: refusalOf(told, 0) };
    return { file: room.bytes.slice(at, at + told[AnswerWord.LENGTH]), refusal: null };
  }

  /**
   * The text laid out: the same tree in the library's own layout, which has no comments. Refused with 3 if the text is
   * no program, and with 4 if its layout is longer than a text may be.
   */
  layout() {
    const room = this.#room;
    if (room.calls.spoonharbor_layout === undefined) throw new Error('layout: this module has no call spoonharbor_layout');
    this.#enter();
    const count = this.tree === null ? 0 : this.#parseInto()[AnswerWord.COUNT];
    room.lendTable(this.#told);
    const told = room.call(
      'layout', room.text, BigInt(this.#lentLength), room.rows, this.#rowWordCount, room.table, room.nodes,
      BigInt(count * NodeWord.WORDS), count, room.scratch, room.laid, BigInt(LONGEST_TEXT),
    );
    if (told[AnswerWord.NUMBER] !== 0) return { text: null, refusal: refusalOf(told, 0) };
    return { text: decoder.decode(room.bytes.slice(room.laid, room.laid + told[AnswerWord.LENGTH])), refusal: null };
  }

  /** The unit at which a byte's character starts, counted from 0. */
  unitAt(byte) {
    return this.#isAscii ? Math.min(byte, this.#length) : this.#places.unitAt(byte);
  }

  /** The byte at which the character of a unit starts, counted from 0. */
  byteAt(unit) {
    return this.#isAscii ? Math.min(unit, this.#length) : this.#places.byteAt(unit);
  }

  get #isAscii() {
    return this.#length === this.#text.length;
  }

  /** How many bytes of the text are lent: of a text that is too long one more than a text may have. */
  get #lentLength() {
    return Math.min(this.#length, LONGEST_TEXT + 1);
  }

  get #places() {
    return this.#offsets ??= new Offsets(this.#text);
  }

  /** Whether there are rows: a table ends without a refusal or with one of 11 to 17. */
  get #isRead() {
    return tellsTable(this.#told);
  }

  get #rowWordCount() {
    return BigInt(this.rowCount * RowWord.WORDS);
  }

  /** Makes this document the one in memory. */
  #enter() {
    if (this.#room.guest === this) return;
    this.#room.enter(this, () => { this.#saved = this.rowWords(); });
    this.#writeText();
    this.#room.words.set(this.#saved, this.#room.rows / WORD);
    this.#saved = NO_ROWS;
  }

  /** Writes the whole text into memory, if it is no longer than a text may be. */
  #writeText() {
    this.#offsets = null;
    this.#length = byteLength(this.#text);
    if (this.#length <= LONGEST_TEXT) this.#room.writeText(this.#text);
  }

  /** Reads the text afresh. */
  #read() {
    this.#enter();
    this.#writeText();
    this.#told = this.#room.scan(this.#lentLength);
    this.#parsed = null;
  }

  /** Reads the rows from a file and says whether it was taken. */
  #readStored(file) {
    const room = this.#room;
    if (this.#length > LONGEST_TEXT || loneHalves(this.#text).length > 0) return false;
    const lent = file.subarray(0, LONGEST_FILE + 1);
    room.bytes.set(lent, room.file);
    const length = BigInt(this.#length);
    const told = room.call('load_beside', room.text, length, room.file, BigInt(lent.length), room.rows, ROW_ROOM_WORDS);
    this.#told = told;
    if (this.#isRead && this.#standsBetweenCharacters()) return true;
    const other = [FileRefusalNumber.OTHER_TEXT, 0, 1, 1, 0, 0, 0, 0];
    this.#storedRefusal = refusalOf(this.#isRead ? other : told, 0);
    return false;
  }

  /** Whether every row, and the rows' ending, stands between two characters. A file may be another text's. */
  #standsBetweenCharacters() {
    const room = this.#room;
    const isInside = (byte) => byte < this.#length && (room.bytes[room.text + byte] & 0xc0) === 0x80;
    for (let row = 0; row < this.rowCount; row++) {
      const at = room.rows / WORD + row * RowWord.WORDS;
      if (isInside(room.words[at + RowWord.START]) || isInside(room.words[at + RowWord.END])) return false;
    }
    return !isInside(this.#told[AnswerWord.OFFSET]);
  }

  /** A change in bytes that cuts no pair of surrogates, neither in the old text nor in the new one. */
  #widened(start, end, text) {
    const old = this.#text;
    if (isHigh(old.charCodeAt(start - 1))) text = old[--start] + text;
    if (isLow(old.charCodeAt(end))) text += old[end++];
    return { from: start, a: this.byteAt(start), b: this.byteAt(end), text, n: byteLength(text) };
  }

  /** Patches the rows by the change call. Says whether it did: there may be no rows, or too long a text. */
  #patch({ from, a, b, text, n }) {
    const room = this.#room;
    const length = this.#length - (b - a) + n;
    if (!this.#isRead || length > LONGEST_TEXT) return false;
    room.bytes.copyWithin(room.text + a + n, room.text + b, room.text + this.#length);
    room.writeText(text, a);
    this.#length = length;
    this.#offsets?.change(this.#text, from);
    room.lendTable(this.#told);
    const old = [room.rows, this.#rowWordCount, room.table];
    const told = room.call('change', ...old, a, b, n, room.text, BigInt(length), room.spare, ROW_ROOM_WORDS);
    if (!tellsTable(told) && told[AnswerWord.NUMBER] !== RefusalNumber.BAD_BYTE) return false;
    [room.rows, room.spare] = [room.spare, room.rows];
    this.#told = told;
    return true;
  }

  /** Parses the rows into the room's nodes. */
  #parseInto() {
    const room = this.#room;
    room.lendTable(this.#told);
    const table = [room.rows, this.#rowWordCount, room.table];
    return room.call('parse', room.text, BigInt(this.#length), ...table, room.nodes, ROW_ROOM_WORDS);
  }

  #parse() {
    if (this.#parsed !== null) return this.#parsed;
    this.#enter();
    const told = this.#parseInto();
    const from = this.#room.nodes / WORD;
    const isProgram = told[AnswerWord.NUMBER] === 0;
    this.#parsed = {
      tree: isProgram ? new Tree(this.#room.words.slice(from, from + told[AnswerWord.COUNT] * NodeWord.WORDS)) : null,
      refusal: refusalOf(told, this.unitAt(told[AnswerWord.OFFSET])),
    };
    return this.#parsed;
  }
}

/** A program's tree: nodes in the order of the C header, children in front of their parent, the program last. */
export class Tree {
  #words;
  #known = null;

  constructor(words) {
    this.#words = words;
  }

  /** How many nodes there are. */
  get nodeCount() {
    return this.#words.length / NodeWord.WORDS;
  }

  /** The program's number. */
  get root() {
    return this.nodeCount - 1;
  }

  /** The node with a number, or null. Place and name are numbers of rows, and null where there is none. */
  node(number) {
    if (!Number.isInteger(number) || number < 0 || number >= this.nodeCount) return null;
    const at = number * NodeWord.WORDS;
    const words = this.#words;
    const name = words[at + NodeWord.NAME];
    return {
      kind: words[at + NodeWord.KIND],
      place: words[at + NodeWord.PLACE],
      name: name === MISSING ? null : name,
      childCount: words[at + NodeWord.CHILDREN],
      facts: [...words.subarray(at + NodeWord.FACTS, at + NodeWord.WORDS)],
    };
  }

  /** The numbers of a node's children, in the text's order. */
  children(number) {
    const children = new Array(this.node(number)?.childCount ?? 0);
    let end = number;
    for (let at = children.length - 1; at >= 0; at--) {
      children[at] = end - 1;
      end = this.#starts[end - 1];
    }
    return children;
  }

  /** Every node's number, each in front of its children as in an outline, and how deep each of these stands. */
  outline() {
    const starts = this.#starts;
    const ranks = new Uint32Array(this.nodeCount);
    const nodes = new Uint32Array(this.nodeCount);
    const depths = new Uint32Array(this.nodeCount);
    for (let node = this.root; node >= 0; node--) {
      const rank = ranks[node];
      nodes[rank] = node;
      // What stands below a node follows it: the last child's nodes are the last of these.
      for (let child = node - 1; child >= starts[node]; child = starts[child] - 1) {
        ranks[child] = rank + 1 + starts[child] - starts[node];
        depths[ranks[child]] = depths[rank] + 1;
      }
    }
    return { nodes, depths };
  }

  /** A copy of the nodes' words, eight to a node as in the C header. */
  nodeWords() {
    return this.#words.slice();
  }

  /** For each node the first of those below it, or itself: all that is below it stands from there on. */
  get #starts() {
    if (this.#known !== null) return this.#known;
    const starts = new Uint32Array(this.nodeCount);
    for (let node = 0; node < this.nodeCount; node++) {
      let start = node;
      for (let left = this.#words[node * NodeWord.WORDS + NodeWord.CHILDREN]; left > 0; left--) start = starts[start - 1];
      starts[node] = start;
    }
    this.#known = starts;
    return starts;
  }
}

/** A node's name word where it has none; a unit's licence has it too. */
export const MISSING = 4294967295;

/** A set of row kinds: what would have fitted. */
export class KindSet {
  #low;
  #high;

  constructor(low, high) {
    this.#low = low;
    this.#high = high;
  }

  /** Whether a kind is in it. */
  has(kind) {
    if (!Number.isInteger(kind) || kind < 0 || kind > RowKind.EOF) return false;
    return ((kind < 32 ? this.#low : this.#high) >>> kind % 32 & 1) === 1;
  }

  /** The kinds in it, in the order of their numbers. */
  kinds() {
    return Array.from({ length: RowKind.EOF + 1 }, (_, kind) => kind).filter((kind) => this.has(kind));
  }

  /** The two words in which it is told: kinds 0 to 31, and from 32 on. */
  get words() {
    return [this.#low, this.#high];
  }
}

/** A refusal of an answer's words whose place is at a unit; null if there is none. */
function refusalOf(told, offset) {
  const number = told[AnswerWord.NUMBER];
  if (number === 0) return null;
  const tellsKinds = TELLS_KINDS.has(number);
  return Object.freeze({
    number,
    offset,
    byte: told[AnswerWord.OFFSET],
    line: told[AnswerWord.LINE],
    column: told[AnswerWord.COLUMN],
    fitting: tellsKinds ? new KindSet(told[AnswerWord.FIRST], told[AnswerWord.SECOND]) : null,
    found: number === RefusalNumber.WANTED ? told[AnswerWord.LENGTH] : null,
    first: tellsKinds ? null : told[AnswerWord.FIRST],
  });
}

function tellsTable(told) {
  const number = told[AnswerWord.NUMBER];
  return number === 0 || number >= RefusalNumber.NO_ROW_BEGINS && number <= RefusalNumber.NO_HEX_DIGIT;
}

/** Units and bytes of a text that is not ASCII: the bytes in front of every 128th unit, as far as asked, and steps. */
class Offsets {
  #text;
  #bytes = [0];

  constructor(text) {
    this.#text = text;
  }

  /** The text has changed from a unit on, which is no second half of a pair. */
  change(text, from) {
    this.#text = text;
    this.#bytes.length = Math.min(this.#bytes.length, (from >> 7) + 1);
  }

  byteAt(unit) {
    const end = Math.min(unit, this.#text.length);
    while (this.#bytes.length <= end >> 7) this.#reach();
    return this.#walk(end >> 7 << 7, end, this.#bytes[end >> 7], Infinity).byte;
  }

  unitAt(byte) {
    while (this.#bytes.at(-1) <= byte && this.#bytes.length <= this.#text.length >> 7) this.#reach();
    let low = 0;
    let high = this.#bytes.length;
    while (high - low > 1) {
      const middle = low + high >> 1;
      if (this.#bytes[middle] <= byte) low = middle;
      else high = middle;
    }
    return this.#walk(low << 7, this.#text.length, this.#bytes[low], byte).unit;
  }

  /** One stretch of 128 units further. */
  #reach() {
    const unit = this.#bytes.length - 1 << 7;
    this.#bytes.push(this.#walk(unit, unit + 128, this.#bytes.at(-1), Infinity).byte);
  }

  /** From a unit and its byte on, up to a unit or as far as a byte lets. */
  #walk(unit, end, byte, most) {
    for (; unit < end; unit++) {
      const next = byte + this.#size(unit);
      if (next > most) break;
      byte = next;
    }
    return { unit, byte };
  }

  /** The bytes of a unit; each half of a pair has two of its four. */
  #size(unit) {
    const code = this.#text.charCodeAt(unit);
    if (code < 0x80) return 1;
    if (code < 0x800) return 2;
    const isPaired = isHigh(code) ? isLow(this.#text.charCodeAt(unit + 1)) : isLow(code) && isHigh(this.#text.charCodeAt(unit - 1));
    return isPaired ? 2 : 3;
  }
}

const isHigh = (code) => code >= 0xd800 && code < 0xdc00;
const isLow = (code) => code >= 0xdc00 && code < 0xe000;

/** The places of halves of pairs that stand alone. */
function loneHalves(text) {
  const lone = [];
  for (let unit = 0; unit < text.length; unit++) {
    const code = text.charCodeAt(unit);
    if (isHigh(code) && isLow(text.charCodeAt(unit + 1))) unit++;
    else if (isHigh(code) || isLow(code)) lone.push(unit);
  }
  return lone;
}

/** How many bytes a text has in UTF-8; half of a pair has three. */
function byteLength(text) {
  let length = text.length;
  for (let unit = 0; unit < text.length; unit++) {
    const code = text.charCodeAt(unit);
    if (code < 0x80) continue;
    if (code < 0x800) length += 1;
    else if (isHigh(code) && isLow(text.charCodeAt(unit + 1))) [length, unit] = [length + 2, unit + 1];
    else length += 2;
  }
  return length;
}

/**
 * Writes a text in UTF-8; gives back how many bytes it has. Half of a pair gets the bytes of its number. They are no
 * UTF-8, so that the library refuses them at their place.
 */
function encodeInto(text, bytes) {
  const { written } = encoder.encodeInto(text, bytes);
  for (const unit of loneHalves(text)) {
    const code = text.charCodeAt(unit);
    bytes.set([0xed, 0x80 | code >> 6 & 0x3f, 0x80 | code & 0x3f], byteLength(text.slice(0, unit)));
  }
  return written;
}

/** A 64-bit number of its two words. */
function signed(low, high) {
  return BigInt.asIntN(64, BigInt(high) << 32n | BigInt(low));
}

function asText(text, where) {
  if (typeof text !== 'string') throw new TypeError(`${where}: the text must be a string`);
}

function asBytes(bytes, where) {
  if (!(bytes instanceof Uint8Array)) throw new TypeError(`${where}: the bytes must be a Uint8Array`);
}

// vpindex in JavaScript: the proved calls of include/vpindex.h, compiled to WebAssembly. That header says what each
// call does, needs and refuses, in which order. A caller makes areas, lends them to calls and reads them afterwards. A
// refusal is thrown, in the header's words. Tags and code words are BigInts, all else is a plain number; one that does
// not fit its type is a RangeError and is never cut. Nothing else in JavaScript needs to know an address.
//
//     const vpindex = await start(bytes of vpindex.wasm);

// ---- from include/vpindex.h, by tools/js_header.py ----
export const VERSION_MAJOR = 0;
export const VERSION_MINOR = 1;
export const VERSION_PATCH = 0;
export const VERSION = 1000;
export const VERSION_TEXT = "0.1.0";
export const MAX_ORDER = 12;
export const SUM_OF_DIFFERENCES = 0;
export const DIFFERING_BITS = 1;
export const LARGEST_DIFFERENCE = 2;
export const MAX_WEIGHT = 100;
export const MAX_MEASURE = 1000000;
export const MAX_DAY = 65535;
export const ANY_DAY = 0;
export const MAX_LISTED = 4096;
export const MAX_RADII = 32;
export const SUMMARY_WORDS = 2;
export const MIN_TAG = 1000000000000n;
export const MAX_NATIONAL = 274877906943n;
export const MAX_TAG = 999274877906943n;
export const ROW_WORDS = 13;
export const ENTRY_WORDS = 2;
export const NAMES = 8;
export const MAX_QUERIES = 16;
export const LIST_HEADER = "tag;kg;hip;girth;gain\n";
export const ACCEPTED = 0;
export const BAD_TAG = 1;
export const BAD_MEASURE = 2;
export const BAD_ORDER = 3;
export const BAD_METRIC = 4;
export const NO_COUNT = 5;
export const NO_ROOM = 6;
export const BAD_LENGTH = 7;
export const BAD_IMAGE = 8;
export const BAD_WEIGHT = 32;
export const BAD_DAY = 33;
export const BAD_NAME = 34;
export const NO_DUES = 39;
export const BAD_BATCH = 40;
export const BAD_RADII = 41;
export const DUPLICATE_TAG = 36;
export const MISPLACED_ITEM = 37;
export const BAD_THRESHOLD = 38;
export const ALREADY_LIVE = 20;
export const NOT_LIVE = 21;
export const FULL = 22;
export const SHORT_AREA = 23;
export const BAD_TABLE = 24;
export const NOT_SAVED = 35;
export const BAD_LIST_HEADER = 30;
export const BAD_LIST_LINE = 31;
const REFUSALS = {
  1: ["BAD_TAG", "the tag's country is not 1 to 999, or its national number is above 274,877,906,943"],
  2: ["BAD_MEASURE", "a measure is not -10,000.00 to 10,000.00"],
  3: ["BAD_ORDER", "the order is above 12"],
  4: ["BAD_METRIC", "there is no metric of this number"],
  5: ["NO_COUNT", "the nearest 0 items were asked for"],
  6: ["NO_ROOM", "an area is too short for the reply, or the states for the snapshot"],
  7: ["BAD_LENGTH", "the image's length is wrong, or past the part of the states that it is in"],
  8: ["BAD_IMAGE", "the image is of no known form, or a field of some slot breaks a rule"],
  20: ["ALREADY_LIVE", "the tag is in the table already"],
  21: ["NOT_LIVE", "the tag is not in the table"],
  22: ["FULL", "the table holds as many items as its order allows"],
  23: ["SHORT_AREA", "a lent area is shorter than the order needs"],
  24: ["BAD_TABLE", "the sizes of the image, or header, sizes or marks of the table, break the rules"],
  30: ["BAD_LIST_HEADER", "the list does not begin with its header line"],
  31: ["BAD_LIST_LINE", "a line of the list is not of the form"],
  32: ["BAD_WEIGHT", "a weight is above 100"],
  33: ["BAD_DAY", "the day is 0"],
  34: ["BAD_NAME", "the name is not 1 to 8"],
  35: ["NOT_SAVED", "nothing was saved under the name"],
  36: ["DUPLICATE_TAG", "the slot's tag is in an earlier slot of its bucket, or live here and in an earlier slot"],
  37: ["MISPLACED_ITEM", "the slot's item is not the one that the tree's layout puts there"],
  38: ["BAD_THRESHOLD", "the slot's threshold is not the one that the tree's layout gives it"],
  39: ["NO_DUES", "a listed item weighs below 0, or the list has more than 4,096 tags"],
  40: ["BAD_BATCH", "a batch has no query, or more than 16"],
  41: ["BAD_RADII", "there are not 1 to 32 radii, or the chosen place is not in their list"],
};
const PROFILE = { bytes: 32, measures: 0, code: 16 };
const REPLIES = {
  added: { bytes: 12, numbers: { refusal: 0, bucket: 4, distances: 8 } },
  removed: { bytes: 8, numbers: { refusal: 0, distances: 4 } },
  looked_up: { bytes: 48, profile: 8, numbers: { refusal: 0, bucket: 4, day: 40 } },
  searched: { bytes: 12, numbers: { refusal: 0, found: 4, distances: 8 } },
  ranges: { bytes: 72, found: 8, numbers: { refusal: 0, distances: 4 } },
  written: { bytes: 8, numbers: { refusal: 0, length: 4 } },
  loaded: { bytes: 8, numbers: { refusal: 0, slot: 4 } },
  list_read: { bytes: 16, numbers: { refusal: 0, line: 4, added: 8, distances: 12 } },
  dues_reply: { bytes: 16, total: 8, numbers: { refusal: 0 } },
};
// ---- end of what is from the header ----

/** @param {number} order @returns {number} rows of a table of this order */
export const tableRows = order => whole(0, MAX_ORDER, order) + 1 + (2 << order);
/** @param {number} order @returns {number} the first row of a table that is a slot */
export const firstSlot = order => whole(0, MAX_ORDER, order) + 2;
/** @param {number} order @returns {number} rows of the work area of add, remove and readList */
export const workRows = order => 1 << whole(0, MAX_ORDER, order);
/** @param {number} order @returns {number} entries that any search of a table that these calls left can find */
export const resultEntries = order => 1 << whole(0, MAX_ORDER, order);
/** @param {number} order @returns {number} entries of the work area of lots, and of its listing */
export const lotsEntries = order => 1 << whole(0, MAX_ORDER, order);
/** @param {number} order @returns {number} bytes that any image of this order can have */
export const imageBytes = order => 8 + 4 * (whole(0, MAX_ORDER, order) + 1) + 50 * ((2 << order) - 1);
/** @param {number} order @returns {number} bytes with room for any snapshot of this order under every name */
export const statesBytes = order => NAMES * (4 + imageBytes(order));

/** Every measure counts as it is. */
export const WEIGHTS_ONE = Object.freeze([1, 1, 1, 1]);

/**
 * A tag from its country, 1 to 999, and its national number. A tag as text is BigInt(text).
 * @param {number} country
 * @param {number | bigint} national
 * @returns {bigint}
 */
export const tagOf = (country, national) => BigInt(country) * 1000000000000n + BigInt(national);

/**
 * @typedef {object} Profile
 * @property {number[]} measures four, in hundredths
 * @property {bigint[]} code two words of 64 bits
 */

/** @typedef {{ tag: bigint, distance: number }} Found */

/** A refused call: `number` is the refusal, `code` its name, `message` the header's words. */
export class Refusal extends Error {
  /**
   * @param {number} number
   * @param {object} reply what it has besides: `slot` of a load or restore; `line`, `added`, `distances` of a list
   */
  constructor(number, reply) {
    const [code, words] = REFUSALS[number] ?? ["UNKNOWN", "a refusal that this header does not know"];
    super(words);
    this.name = "Refusal";
    this.number = number;
    this.code = code;
    this.reply = reply;
  }
}

// WebAssembly would take a number past its type as another one.
function whole(least, most, number) {
  if (Number.isInteger(number) && number >= least && number <= most) return number;
  throw new RangeError(`${String(number)} is not a whole number of ${least} to ${most}`);
}

const u8 = number => whole(0, 0xff, number);
const u16 = number => whole(0, 0xffff, number);
const u32 = number => whole(0, 0xffffffff, number);
const i32 = number => whole(-0x80000000, 0x7fffffff, number);

function u64(number) {
  if (typeof number === "bigint" && number >= 0n && number < 1n << 64n) return number;
  throw new RangeError(`${String(number)} is not a BigInt of 0 to 2^64 - 1`);
}

function exactly(count, list) {
  if (list.length === count) return list;
  throw new RangeError(`${count} numbers are wanted, not ${list.length}`);
}

// What an area has elements of: their words, and a test that a number fits one.
const ROW = { words: ROW_WORDS, Words: Uint32Array, fit: u32 };
const ENTRY = { words: ENTRY_WORDS, Words: BigUint64Array, fit: u64 };
const PAIR = { words: SUMMARY_WORDS, Words: Uint32Array, fit: u32 };
const NUMBER = { words: 1, Words: Uint32Array, fit: u32 };
const TAG = { words: 1, Words: BigUint64Array, fit: u64 };
const BYTE = { words: 1, Words: Uint8Array, fit: u8 };

/** So many elements in a row, in the memory of the calls. Elements are counted from 0, and so are the words of each. */
export class Area {
  #memory;
  #kind;
  #at;

  /** Areas are made by `rows`, `entries`, `pairs`, `numbers`, `tags` and `bytes` of a Vpindex. */
  constructor(memory, kind, at, length) {
    this.#memory = memory;
    this.#kind = kind;
    this.#at = at;
    /** @type {number} elements */
    this.length = length;
    Object.freeze(this);
  }

  /**
   * The first elements alone, in the same place: lent, it is an area of that length.
   * @param {number} length
   */
  first(length) {
    return new Area(this.#memory, this.#kind, this.#at, whole(0, this.length, length));
  }

  /**
   * A copy of the words of the elements from one to another.
   * @returns {Uint32Array | BigUint64Array | Uint8Array}
   */
  get(from = 0, to = this.length) {
    return this.#words().slice(this.#place(from), this.#place(to));
  }

  /**
   * Writes words, one behind the other, from an element on.
   * @param {ArrayLike<number> | ArrayLike<bigint>} words
   */
  put(words, from = 0) {
    const at = this.#place(from), all = this.#words();
    whole(0, all.length - at, words.length);
    if (!(words instanceof this.#kind.Words)) words = Array.from(words, this.#kind.fit);
    all.set(words, at);
  }

  // Where it is, for the calls: an address and a length.
  lent(memory, kind) {
    if (this.#memory !== memory || this.#kind !== kind) throw new TypeError("an area of another kind or memory");
    return [this.#at, this.length];
  }

  get bytes() {
    return this.length * this.#kind.words * this.#kind.Words.BYTES_PER_ELEMENT;
  }

  #words() {
    return new this.#kind.Words(this.#memory.buffer, this.#at, this.length * this.#kind.words);
  }

  #place(element) {
    return whole(0, this.length, element) * this.#kind.words;
  }
}

/**
 * A row for rangeBatch.
 * @param {Profile} profile
 * @param {number} radius
 * @returns {number[]}
 */
export function queryRow({ measures, code }, radius, firstDay = ANY_DAY) {
  const halves = exactly(2, code).map(u64).flatMap(word => [Number(word & 0xffffffffn), Number(word >> 32n)]);
  return [0, 0, ...exactly(4, measures).map(measure => i32(measure) >>> 0), ...halves, u32(radius), 0, u16(firstDay)];
}

const PAGE = 1 << 16;

/** The calls, over a memory of their own. */
export class Vpindex {
  #calls;
  #memory;
  #end;
  #reply;
  #given;

  /** @param {WebAssembly.Instance} instance of vpindex.wasm */
  constructor(instance) {
    this.#calls = instance.exports;
    this.#memory = instance.exports.memory;
    // What the module has of memory is its stack: areas stand behind it.
    this.#end = this.#memory.buffer.byteLength;
    this.#reply = this.#place(Math.max(...Object.values(REPLIES).map(({ bytes }) => bytes)));
    this.#given = this.#place(PROFILE.bytes);
  }

  /** Areas, all zero. They stay for as long as the Vpindex does. */
  rows(length) { return this.#area(ROW, length); }
  entries(length) { return this.#area(ENTRY, length); }
  pairs(length) { return this.#area(PAIR, length); }
  numbers(length) { return this.#area(NUMBER, length); }
  tags(length) { return this.#area(TAG, length); }
  bytes(length) { return this.#area(BYTE, length); }

  /**
   * @param {Area} table rows
   * @param {number} order
   * @param {number} metric
   * @param {ArrayLike<number>} weights four
   */
  fresh(table, order, metric, weights = WEIGHTS_ONE) {
    const view = this.#view();
    exactly(4, weights).forEach((weight, i) => view.setUint32(this.#given + 4 * i, u32(weight), true));
    accept(this.#calls.vpindex_fresh(...this.#lend([table, ROW]), u32(order), u32(metric), this.#given) >>> 0);
  }

  /** @param {Area} table rows @param {Area} image bytes */
  load(table, image) {
    this.#calls.vpindex_load(this.#reply, ...this.#lend([table, ROW], [image, BYTE]));
    this.#replied(REPLIES.loaded);
  }

  /**
   * @param {Area} table rows
   * @param {Area} work rows
   * @param {bigint} tag
   * @param {Profile} profile
   * @param {number} day
   * @returns {{ bucket: number, distances: number }}
   */
  add(table, work, tag, profile, day) {
    const areas = this.#lend([table, ROW], [work, ROW]);
    this.#calls.vpindex_add(this.#reply, ...areas, u64(tag), this.#profile(profile), u16(day));
    return this.#replied(REPLIES.added);
  }

  /** @param {Area} table rows @param {Area} work rows @param {bigint} tag @returns {{ distances: number }} */
  remove(table, work, tag) {
    this.#calls.vpindex_remove(this.#reply, ...this.#lend([table, ROW], [work, ROW]), u64(tag));
    return this.#replied(REPLIES.removed);
  }

  /** @param {Area} table rows @param {bigint} tag @returns {{ bucket: number, day: number, profile: Profile }} */
  lookUp(table, tag) {
    this.#calls.vpindex_look_up(this.#reply, ...this.#lend([table, ROW]), u64(tag));
    const { bucket, day } = this.#replied(REPLIES.looked_up);
    const view = this.#view(), at = this.#reply + REPLIES.looked_up.profile;
    const measures = [0, 1, 2, 3].map(i => view.getInt32(at + PROFILE.measures + 4 * i, true));
    const code = [0, 1].map(i => view.getBigUint64(at + PROFILE.code + 8 * i, true));
    return { bucket, day, profile: { measures, code } };
  }

  /**
   * @param {Area} table rows
   * @param {Area} result entries
   * @param {Profile} query
   * @param {number} radius
   * @param {number} firstDay
   * @returns {{ found: Found[], distances: number }}
   */
  range(table, result, query, radius, firstDay = ANY_DAY) {
    return this.#search(this.#calls.vpindex_range, table, result, query, radius, firstDay);
  }

  /**
   * @param {Area} table rows
   * @param {Area} result entries
   * @param {Profile} query
   * @param {number} k
   * @param {number} firstDay
   * @returns {{ found: Found[], distances: number }}
   */
  nearest(table, result, query, k, firstDay = ANY_DAY) {
    return this.#search(this.#calls.vpindex_nearest, table, result, query, k, firstDay);
  }

  /**
   * @param {Area} table rows
   * @param {Area} result entries
   * @param {Area} queries rows, each as queryRow gives it
   * @returns {{ found: Found[][], distances: number }} a list for each query
   */
  rangeBatch(table, result, queries) {
    const areas = this.#lend([table, ROW], [result, ENTRY], [queries, ROW]);
    this.#calls.vpindex_range_batch(this.#reply, ...areas);
    const { distances } = this.#replied(REPLIES.ranges);
    const view = this.#view(), at = this.#reply + REPLIES.ranges.found;
    const part = Math.floor(result.length / queries.length);
    const list = (_, i) => foundIn(result, i * part, view.getUint32(at + 4 * i, true));
    return { found: Array.from({ length: queries.length }, list), distances };
  }

  /** @param {Area} table rows @param {Area} image bytes @returns {{ length: number }} */
  write(table, image) {
    this.#calls.vpindex_write(this.#reply, ...this.#lend([table, ROW], [image, BYTE]));
    return this.#replied(REPLIES.written);
  }

  /**
   * A refusal's reply says at which line, and what was added before it.
   * @param {Area} table rows
   * @param {Area} work rows
   * @param {Area} list bytes
   * @param {number} day
   * @returns {{ line: number, added: number, distances: number }}
   */
  readList(table, work, list, day) {
    const areas = this.#lend([table, ROW], [work, ROW], [list, BYTE]);
    this.#calls.vpindex_read_list(this.#reply, ...areas, u16(day));
    return this.#replied(REPLIES.list_read);
  }

  /** @param {Area} table rows @param {Area} states bytes @param {number} name @returns {{ length: number }} */
  save(table, states, name) {
    this.#calls.vpindex_save(this.#reply, ...this.#lend([table, ROW], [states, BYTE]), u32(name));
    return this.#replied(REPLIES.written);
  }

  /** @param {Area} table rows @param {Area} states bytes @param {number} name */
  restore(table, states, name) {
    this.#calls.vpindex_restore(this.#reply, ...this.#lend([table, ROW], [states, BYTE]), u32(name));
    this.#replied(REPLIES.loaded);
  }

  /** @param {Area} table rows @param {Area} tags tags @param {Area} dues numbers @returns {{ total: number }} cents */
  dues(table, tags, dues) {
    this.#calls.vpindex_dues(this.#reply, ...this.#lend([table, ROW], [tags, TAG], [dues, NUMBER]));
    this.#replied(REPLIES.dues_reply);
    // At most 4,096 numbers of 32 bits: it is exact.
    return { total: Number(this.#view().getBigUint64(this.#reply + REPLIES.dues_reply.total, true)) };
  }

  /**
   * @param {Area} table rows
   * @param {Area} work entries
   * @param {Area} radii numbers
   * @param {Area} summary pairs
   * @param {Area} listing entries
   * @param {number} chosen
   */
  lots(table, work, radii, summary, listing, chosen) {
    const areas = this.#lend([table, ROW], [work, ENTRY], [radii, NUMBER], [summary, PAIR], [listing, ENTRY]);
    accept(this.#calls.vpindex_lots(...areas, u32(chosen)) >>> 0);
  }

  #search(call, table, result, query, bound, firstDay) {
    const areas = this.#lend([table, ROW], [result, ENTRY]);
    call(this.#reply, ...areas, this.#profile(query), u32(bound), u16(firstDay));
    const { found, distances } = this.#replied(REPLIES.searched);
    return { found: foundIn(result, 0, found), distances };
  }

  #view() {
    return new DataView(this.#memory.buffer);
  }

  #place(bytes) {
    const at = this.#end;
    const end = at + Math.ceil(bytes / 16) * 16;
    const missing = Math.ceil((end - this.#memory.buffer.byteLength) / PAGE);
    if (missing > 0) this.#memory.grow(missing);
    this.#end = end;
    return at;
  }

  #area(kind, length) {
    const bytes = whole(0, 0xffffffff, length) * kind.words * kind.Words.BYTES_PER_ELEMENT;
    return new Area(this.#memory, kind, this.#place(bytes), length);
  }

  // Addresses and lengths of areas, as the calls take them: of the kinds that are wanted, and none in part another.
  #lend(...wanted) {
    const areas = wanted.map(([area, kind]) => area.lent(this.#memory, kind));
    const ends = areas.map(([at], i) => ({ at, end: at + wanted[i][0].bytes }));
    const meet = ends.some((one, i) => ends.some((other, j) => i < j && one.at < other.end && other.at < one.end));
    if (meet) throw new TypeError("areas of one call overlap");
    return areas.flat();
  }

  #profile({ measures, code }) {
    const view = this.#view(), at = this.#given;
    exactly(4, measures).forEach((measure, i) => view.setInt32(at + PROFILE.measures + 4 * i, i32(measure), true));
    exactly(2, code).forEach((word, i) => view.setBigUint64(at + PROFILE.code + 8 * i, u64(word), true));
    return at;
  }

  // The plain numbers of the reply, where it was accepted.
  #replied({ numbers }) {
    const view = this.#view();
    const { refusal, ...reply } = Object.fromEntries(
      Object.entries(numbers).map(([name, place]) => [name, view.getUint32(this.#reply + place, true)]));
    accept(refusal, reply);
    return reply;
  }
}

function accept(refusal, reply = {}) {
  if (refusal !== ACCEPTED) throw new Refusal(refusal, reply);
}

function foundIn(result, from, count) {
  const words = result.get(from, from + count);
  return Array.from({ length: count }, (_, i) => ({ tag: words[2 * i], distance: Number(words[2 * i + 1]) }));
}

/**
 * @param {BufferSource | WebAssembly.Module} source vpindex.wasm, as bytes or compiled
 * @returns {Promise<Vpindex>}
 */
export async function start(source) {
  const made = await WebAssembly.instantiate(source);
  return new Vpindex(made instanceof WebAssembly.Instance ? made : made.instance);
}

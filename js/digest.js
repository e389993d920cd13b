// The digest of c/digest.c with every call made through js/vpindex.js: node js/digest.js VPINDEX.wasm DIGEST.wasm CALLS
// SEED. The digest is a module of its own, whose calls are those below: the areas that it lends go over into areas of
// vpindex.js, and back after the call.
import { readFileSync } from "node:fs";
import { Refusal, start, imageBytes, MAX_ORDER, MAX_QUERIES, ROW_WORDS, ENTRY_WORDS, SUMMARY_WORDS }
  from "./vpindex.js";

const [wasm, digest, calls, seed] = process.argv.slice(2);
const vpindex = await start(readFileSync(wasm));

const KINDS = {
  rows: [Uint32Array, ROW_WORDS], entries: [BigUint64Array, ENTRY_WORDS], pairs: [Uint32Array, SUMMARY_WORDS],
  numbers: [Uint32Array, 1], tags: [BigUint64Array, 1], bytes: [Uint8Array, 1],
};
const made = new Map();

// The digest's own words of an area, and the area of vpindex.js that goes with them.
function lent(kind, at, length) {
  const [Words, count] = KINDS[kind], own = new Words(memory.buffer, at, length * count);
  if (!(made.get(at)?.length >= length)) made.set(at, vpindex[kind](length));
  const area = made.get(at).first(length);
  area.put(own);
  return { own, area };
}

// Makes a call on areas, each a kind, an address and a length; then writes the numbers of its reply.
function call(areas, through, at = 0, numbers = () => []) {
  const lending = areas.map(area => lent(...area));
  let refusal = 0, reply = {};
  try {
    reply = through(...lending.map(({ area }) => area)) ?? {};
  } catch (thrown) {
    if (!(thrown instanceof Refusal)) throw thrown;
    refusal = thrown.number;
    reply = { found: [], total: 0, profile: { measures: [0, 0, 0, 0], code: [0n, 0n] }, ...thrown.reply };
  }
  lending.forEach(({ own, area }) => own.set(area.get()));
  if (at !== 0) new Uint32Array(memory.buffer).set([refusal, ...numbers(reply)], at / 4);
  return refusal;
}

const u32 = number => number >>> 0, u64 = number => BigInt.asUintN(64, number);
const halves = word => [Number(word & 0xffffffffn), Number(word >> 32n)];
function profileAt(at) {
  const code = [...new BigUint64Array(memory.buffer, at + 16, 2)];
  return { measures: [...new Int32Array(memory.buffer, at, 4)], code };
}
const searched = ({ found, distances }) => [found.length ?? 0, distances];

const env = {
  vpindex_fresh: (table, rows, order, metric, weights) => call([["rows", table, rows]],
    area => vpindex.fresh(area, u32(order), u32(metric), [...new Uint32Array(memory.buffer, weights, 4)])),
  vpindex_load: (reply, table, rows, image, bytes) => call([["rows", table, rows], ["bytes", image, bytes]],
    (...areas) => vpindex.load(...areas), reply, ({ slot = 0 }) => [slot]),
  vpindex_add: (reply, table, rows, work, room, tag, profile, day) =>
    call([["rows", table, rows], ["rows", work, room]],
      (...areas) => vpindex.add(...areas, u64(tag), profileAt(profile), day), reply,
      ({ bucket, distances }) => [bucket, distances]),
  vpindex_remove: (reply, table, rows, work, room, tag) => call([["rows", table, rows], ["rows", work, room]],
    (...areas) => vpindex.remove(...areas, u64(tag)), reply, ({ distances }) => [distances]),
  vpindex_look_up: (reply, table, rows, tag) => call([["rows", table, rows]],
    area => vpindex.lookUp(area, u64(tag)), reply,
    ({ bucket, day, profile: { measures, code } }) => [bucket, ...measures, ...code.flatMap(halves), day, 0]),
  vpindex_range: (reply, table, rows, result, room, query, radius, day) =>
    call([["rows", table, rows], ["entries", result, room]],
      (...areas) => vpindex.range(...areas, profileAt(query), u32(radius), day), reply, searched),
  vpindex_nearest: (reply, table, rows, result, room, query, k, day) =>
    call([["rows", table, rows], ["entries", result, room]],
      (...areas) => vpindex.nearest(...areas, profileAt(query), u32(k), day), reply, searched),
  vpindex_range_batch: (reply, table, rows, result, room, queries, count) =>
    call([["rows", table, rows], ["entries", result, room], ["rows", queries, count]],
      (...areas) => vpindex.rangeBatch(...areas), reply, ({ found, distances }) =>
        [distances, ...Array.from({ length: MAX_QUERIES }, (_, i) => found[i]?.length ?? 0)]),
  vpindex_write: (reply, table, rows, image, bytes) => call([["rows", table, rows], ["bytes", image, bytes]],
    (...areas) => vpindex.write(...areas), reply, ({ length }) => [length]),
  vpindex_read_list: (reply, table, rows, work, room, list, bytes, day) =>
    call([["rows", table, rows], ["rows", work, room], ["bytes", list, bytes]],
      (...areas) => vpindex.readList(...areas, day), reply, ({ line, added, distances }) => [line, added, distances]),
  vpindex_save: (reply, table, rows, states, bytes, name) => call([["rows", table, rows], ["bytes", states, bytes]],
    (...areas) => vpindex.save(...areas, u32(name)), reply, ({ length }) => [length]),
  vpindex_restore: (reply, table, rows, states, bytes, name) => call([["rows", table, rows], ["bytes", states, bytes]],
    (...areas) => vpindex.restore(...areas, u32(name)), reply, ({ slot = 0 }) => [slot]),
  vpindex_dues: (reply, table, rows, tags, count, dues, room) =>
    call([["rows", table, rows], ["tags", tags, count], ["numbers", dues, room]],
      (...areas) => vpindex.dues(...areas), reply, ({ total }) => [0, ...halves(BigInt(total))]),
  vpindex_lots: (table, rows, work, room, radii, count, summary, summed, listing, listed, chosen) =>
    call([["rows", table, rows], ["entries", work, room], ["numbers", radii, count], ["pairs", summary, summed],
      ["entries", listing, listed]], (...areas) => vpindex.lots(...areas, u32(chosen))),
};

const { instance: { exports } } = await WebAssembly.instantiate(readFileSync(digest), { env });
const { memory, digest_of_calls, digest_of_order_12, digest_longest_image } = exports;
// The refusals are counted in a page of their own.
const refusals = memory.grow(1) << 16, hex = number => u64(number).toString(16);
console.log(`calls ${hex(digest_of_calls(Number(calls), Number(seed), refusals))}`);
console.log(`order 12 ${hex(digest_of_order_12(Number(seed), refusals))}`);
console.log(`longest image ${digest_longest_image()} of ${imageBytes(MAX_ORDER)}`);
new Uint32Array(memory.buffer, refusals, 43).forEach((times, refusal) => {
  if (times !== 0) console.log(`refusal ${refusal} times ${times}`);
});

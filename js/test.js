// Holds js/vpindex.js to the header and to its own words: node js/test.js VPINDEX.wasm SIZES.json. That the calls reply
// as the archive does is tested by the digest (tools/targets.sh).
import assert from "node:assert/strict";
import { readFileSync } from "node:fs";
import * as js from "./vpindex.js";

const [wasm, sizes] = process.argv.slice(2);
const module = new WebAssembly.Module(readFileSync(wasm));

// The module asks for nothing, and gives the calls and the memory that they work on.
const header = readFileSync(new URL("../include/vpindex.h", import.meta.url), "utf8");
const calls = [...header.matchAll(/^\w+ (vpindex_\w+)\(/gm)].map(([, name]) => name);
assert.deepEqual(WebAssembly.Module.imports(module), []);
assert.deepEqual(WebAssembly.Module.exports(module).map(({ name }) => name).sort(), ["memory", ...calls].sort());

// How long areas are, by every order.
const camel = name => name.toLowerCase().replace(/_(\w)/g, (_, letter) => letter.toUpperCase());
for (const [name, numbers] of Object.entries(JSON.parse(readFileSync(sizes, "utf8")))) {
  numbers.forEach((number, order) => assert.equal(js[camel(name)](order), number, `${name}(${order})`));
}

const vpindex = await js.start(module), order = 3;
const table = vpindex.rows(js.tableRows(order)), work = vpindex.rows(js.workRows(order));
const result = vpindex.entries(js.resultEntries(order)), image = vpindex.bytes(js.imageBytes(order));
const tags = vpindex.tags(3), dues = vpindex.numbers(3);
const profile = { measures: [41250, -12900, 18500, 95], code: [2n ** 64n - 1n, 7n] };
const other = { measures: [38000, -12900, 18500, 95], code: [0n, 7n] };
const tag = js.tagOf(36, 101), second = BigInt("840003123456789");

// Each call, with what it replies.
vpindex.fresh(table, order, js.SUM_OF_DIFFERENCES);
assert.deepEqual(vpindex.add(table, work, tag, profile, 305), { bucket: 0, distances: 0 });
assert.deepEqual(vpindex.add(table, work, second, other, 65535), { bucket: 1, distances: 1 });
assert.deepEqual(vpindex.lookUp(table, tag), { bucket: 1, day: 305, profile });
const both = [{ tag, distance: 0 }, { tag: second, distance: 3250 }];
assert.deepEqual(vpindex.nearest(table, result, profile, 2), { found: both, distances: 2 });
assert.deepEqual(vpindex.range(table, result, profile, 3250, 306).found, both.slice(1));
const queries = vpindex.rows(2);
queries.put([...js.queryRow(profile, 3249), ...js.queryRow(other, 0xffffffff, 306)]);
assert.deepEqual(vpindex.rangeBatch(table, result, queries).found, [both.slice(0, 1), [{ tag: second, distance: 0 }]]);
tags.put([tag, second, tag]);
assert.deepEqual(vpindex.dues(table, tags, dues), { total: 1238 + 760 + 1238 });
assert.deepEqual([...dues.get()], [1238, 760, 1238]);
const { length } = vpindex.write(table, image), written = image.get(0, length);
assert.deepEqual(vpindex.remove(table, work, tag), { distances: 0 });
vpindex.load(table, image.first(length));
assert.deepEqual(vpindex.write(table, image), { length });
assert.deepEqual(image.get(0, length), written);
const states = vpindex.bytes(js.statesBytes(order));
assert.deepEqual(vpindex.save(table, states, 8), { length });
vpindex.fresh(table, order, js.DIFFERING_BITS, [0, 1, 2, 100]);
vpindex.restore(table, states, 8);
assert.equal(vpindex.lookUp(table, tag).day, 305);
const list = vpindex.bytes(200), text = `${js.LIST_HEADER}036000000000102;412,50;129,00;185,00;-0,95\n`;
list.put(new TextEncoder().encode(text));
assert.deepEqual(vpindex.readList(table, work, list.first(text.length), 1), { line: 0, added: 1, distances: 0 });
const lotsWork = vpindex.entries(js.lotsEntries(order)), radii = vpindex.numbers(2), summary = vpindex.pairs(2);
radii.put([3250, 0]);
vpindex.lots(table, lotsWork, radii, summary, result, 2);
assert.deepEqual([...summary.get()], [2, 2, 3, 1]);
assert.deepEqual([...result.get(0, 3)], [tag, 1n, js.tagOf(36, 102), 2n, second, 3n]);

// Refusals, in the header's words, with what the reply has besides.
const refused = (call, number, reply) => assert.throws(call, thrown =>
  thrown instanceof js.Refusal && thrown.number === number && assert.deepEqual(thrown.reply, reply) === undefined);
refused(() => vpindex.add(table, work, tag, profile, 305), js.ALREADY_LIVE, { bucket: 0, distances: 0 });
refused(() => vpindex.readList(table, work, list.first(text.length), 1), js.ALREADY_LIVE,
  { line: 2, added: 0, distances: 0 });
refused(() => vpindex.fresh(table.first(3), order, 0), js.SHORT_AREA, {});
image.put([image.get()[16] ^ 1], 16);
assert.throws(() => vpindex.load(table, image.first(length)), { name: "Refusal", code: "BAD_TABLE" });
assert.throws(() => vpindex.fresh(table, 13, 0), { message: "the order is above 12", number: 3, code: "BAD_ORDER" });

// A number that does not fit its type is an error, in each place that takes one, and leaves every area alone.
const before = table.get();
const wrong = [-1, 2 ** 32, 1.5, NaN, "1", 1n, undefined, null];
for (const number of wrong) {
  for (const call of [
    () => vpindex.fresh(table, number, 0), () => vpindex.fresh(table, order, number),
    () => vpindex.fresh(table, order, 0, [1, 1, number, 1]), () => vpindex.nearest(table, result, profile, number),
    () => vpindex.range(table, result, profile, number), () => vpindex.save(table, states, number),
    () => vpindex.restore(table, states, number), () => vpindex.lots(table, lotsWork, radii, summary, result, number),
    () => radii.put([number]), () => table.put([number]), () => image.put([number]), () => table.first(number),
    () => js.queryRow(profile, number), () => vpindex.rows(number), () => js.tableRows(number),
  ]) {
    // A missing argument is another thing than a wrong one.
    if (number !== undefined) assert.throws(call, RangeError, `${call} with ${String(number)}`);
  }
  for (const call of [
    () => vpindex.add(table, work, second + 1n, profile, number ?? NaN),
    () => vpindex.nearest(table, result, profile, 1, number ?? NaN),
    () => vpindex.readList(table, work, list, number ?? NaN),
  ]) assert.throws(call, RangeError);
}
for (const day of [65536, -1]) {
  assert.throws(() => vpindex.add(table, work, second + 1n, profile, day), RangeError);
  assert.throws(() => vpindex.range(table, result, profile, 0, day), RangeError);
  assert.throws(() => vpindex.readList(table, work, list, day), RangeError);
  assert.throws(() => js.queryRow(profile, 0, day), RangeError);
}
for (const number of [-1n, 2n ** 64n, 1, "1", undefined]) {
  assert.throws(() => vpindex.add(table, work, number, profile, 1), RangeError);
  assert.throws(() => vpindex.remove(table, work, number), RangeError);
  assert.throws(() => vpindex.lookUp(table, number), RangeError);
  assert.throws(() => tags.put([number]), RangeError);
  assert.throws(() => vpindex.range(table, result, { ...profile, code: [0n, number] }, 1), RangeError);
}
for (const measures of [[2 ** 31, 0, 0, 0], [0, 0, 0, -(2 ** 31) - 1], [0, 0, 0], [0, 0, 0, 0, 0], [0.5, 0, 0, 0]]) {
  assert.throws(() => vpindex.range(table, result, { ...profile, measures }, 1), RangeError);
  assert.throws(() => js.queryRow({ ...profile, measures }, 1), RangeError);
}
assert.throws(() => radii.put([1, 2, 3]), RangeError);
assert.throws(() => image.put([256]), RangeError);

// Areas of another kind or another memory, and areas that overlap, are never lent.
const elsewhere = await js.start(module);
assert.throws(() => vpindex.add(table, table.first(8), second + 1n, profile, 1), TypeError);
assert.throws(() => vpindex.range(table, table, profile, 1), TypeError);
assert.throws(() => elsewhere.lookUp(table, tag), TypeError);
assert.deepEqual(table.get(), before);

// Memory grows without losing what was there, and areas of no length are areas.
vpindex.bytes(10_000_000);
assert.deepEqual(table.get(), before);
refused(() => vpindex.lookUp(vpindex.rows(0), tag), js.SHORT_AREA, { bucket: 0, day: 0 });

// A herd in the proved calls: their areas, laid out once for the largest order, and what they answer as plain lists.
// The page has one, and each of its workers another. What the calls do and refuse is told in vpindex.h.

const MAX_HEAD = resultEntries(MAX_ORDER), ANY_DISTANCE = 0xffffffff;
// What the words of a row are, behind the tag and the profile.
const THRESHOLD = 10, MARK = 11;

class Index {
  static async start(module) {
    return new Index(await start(module));
  }

  constructor(calls) {
    this.calls = calls;
    this.rows = calls.rows(tableRows(MAX_ORDER));
    this.work = calls.rows(workRows(MAX_ORDER));
    this.result = calls.entries(MAX_HEAD);
    this.drafting = calls.entries(lotsEntries(MAX_ORDER));
    this.radii = calls.numbers(MAX_RADII);
    this.summary = calls.pairs(MAX_RADII);
    this.listed = calls.tags(MAX_HEAD);
    this.each = calls.numbers(MAX_HEAD);
    // One byte more than any image has: a longer one is of a wrong length still when it is cut.
    this.file = calls.bytes(imageBytes(MAX_ORDER) + 1);
  }

  fresh(order, metric, weights) {
    this.calls.fresh(this.rows, order, metric, weights);
  }

  load(image) {
    this.calls.load(this.rows, this.lent(image));
  }

  write() {
    return this.file.get(0, this.calls.write(this.rows, this.file).length);
  }

  add(tag, profile, day) {
    this.calls.add(this.rows, this.work, tag, profile, day);
  }

  remove(tag) {
    this.calls.remove(this.rows, this.work, tag);
  }

  // A list's header alone, or with one line behind it: of more lines, those before a refused one would stay added.
  readLine(list, day) {
    this.calls.readList(this.rows, this.work, this.lent(list), day);
  }

  lookUp(tag) {
    const { profile, day } = this.calls.lookUp(this.rows, tag);
    return { ...profile, day };
  }

  // Both searches give a list of { tag, distance }, the nearest first.
  range(profile, radius, since) {
    return this.calls.range(this.rows, this.result, profile, radius, since).found;
  }

  nearest(profile, count, since) {
    return this.calls.nearest(this.rows, this.result, profile, count, since).found;
  }

  // In cents, of each and of all.
  dues(tags) {
    const listed = this.listed.first(tags.length);
    listed.put(tags);
    const { total } = this.calls.dues(this.rows, listed, this.each);
    return { each: [...this.each.get(0, tags.length)], total };
  }

  // By each radius the number of lots and the head of the largest; by the first of them the lots, as lists of tags.
  lots(radii) {
    const tried = this.radii.first(radii.length), summary = this.summary.first(radii.length);
    tried.put(radii);
    this.calls.lots(this.rows, this.drafting, tried, summary, this.result, 1);
    const words = summary.get();
    const byRadius = radii.map((radius, i) => ({ radius, lots: words[2 * i], largest: words[2 * i + 1] }));
    const lots = Array.from({ length: byRadius[0].lots }, () => []);
    const entries = this.result.get();
    for (let i = 0; i < entries.length && entries[i + 1]; i += 2) lots[Number(entries[i + 1]) - 1].push(entries[i]);
    return { byRadius, lots };
  }

  // What the table is made of, read off its first rows.
  table() {
    const [order, metric, ...weights] = this.rows.get(0, 1).slice(0, 6);
    const bucket = (_, k) => {
      const [built, live] = this.rows.get(1 + k, 2 + k);
      return { bucket: k, room: 1 << k, built, live };
    };
    return { order, metric, weights, buckets: Array.from({ length: order + 1 }, bucket) };
  }

  // The slots of a bucket's tree, read off its rows.
  slots({ room, built }) {
    const first = firstSlot(this.table().order) + room - 1;
    return Array.from({ length: built }, (_, i) => {
      const row = this.rows.get(first + i, first + i + 1);
      return { tag: BigInt(row[1]) << 32n | BigInt(row[0]), threshold: row[THRESHOLD], isLive: row[MARK] === 0 };
    });
  }

  lent(bytes) {
    const file = this.file.first(Math.min(bytes.length, this.file.length));
    file.put(bytes.subarray(0, file.length));
    return file;
  }
}

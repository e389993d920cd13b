// A herd as people see it: a list of head, and tags, measures and money as text. What is in it, which lots it makes and
// what it pays are answers of the calls; least, mean and most are worked out here.

const MEASURES = ["kg", "hip", "girth", "gain"];
const METRICS = [
  { name: "sum", unit: "hundredths", words: "the weighted differences of the four measures added up" },
  { name: "bits", unit: "bits", words: "the number of bits in which the coat codes differ" },
  { name: "worst", unit: "hundredths", words: "the largest of the weighted differences of the four measures" },
];
const NO_CODE = [0n, 0n], ANY_PROFILE = { measures: [0, 0, 0, 0], code: NO_CODE };

// Text

const grouped = number => String(number).replace(/\B(?=(\d{3})+(\.|$))/g, ",");
const counted = (number, one, many) => `${grouped(number)} ${number === 1 ? one : many}`;
const tagText = tag => String(tag).padStart(15, "0");

// 41250 as 412.50
function measureText(hundredths) {
  const digits = String(Math.abs(hundredths)).padStart(3, "0");
  return `${hundredths < 0 ? "-" : ""}${digits.slice(0, -2)}.${digits.slice(-2)}`;
}

const moneyText = cents => grouped(measureText(cents));
const codeText = ([first, second]) =>
  first || second ? [first, second].map(word => word.toString(16).padStart(16, "0")).join("") : "-";

// A day is a date too where that of day 1 is known.
const MILLISECONDS = 24 * 60 * 60 * 1000, DAY_ONE = Date.parse(document.getElementById("image").dataset.dayOne);
const hasDates = !Number.isNaN(DAY_ONE);
const isDay = day => day >= 1 && day <= MAX_DAY;
const dayText = day => hasDates ? new Date(DAY_ONE + (day - 1) * MILLISECONDS).toISOString().slice(0, 10) : String(day);

// By the clock on the wall; none where dates are not known, or it is no day of a herd.
function today() {
  const now = new Date(), date = Date.UTC(now.getFullYear(), now.getMonth(), now.getDate());
  const day = (date - DAY_ONE) / MILLISECONDS + 1;
  return isDay(day) ? day : null;
}

// What a call says, in a yard's words: what the header calls a table is a herd, and its items are head.
const ofHerd = words => words.replaceAll("table", "herd").replace(/items?/g, "head");

// What was typed. Whether a call takes it is for the call to say; what is no number at all is told here.

class Mistyped extends Error {}

function readTag(typed) {
  const digits = typed.replace(/\s/g, "");
  if (!/^\d{15}$/.test(digits)) throw new Mistyped("a tag is 15 digits");
  return BigInt(digits);
}

// With a point or a comma, and up to two digits behind it.
function readMeasure(typed) {
  const parts = /^(-?)(\d{1,7})(?:[.,](\d{1,2}))?$/.exec(typed.trim());
  if (!parts) throw new Mistyped("a number such as 412.50 belongs here");
  const [, minus, units, hundredths = ""] = parts;
  return Number(`${minus}${units}${hundredths.padEnd(2, "0")}`) || 0;
}

function readCode(typed) {
  const digits = typed.trim().toLowerCase();
  if (digits === "" || digits === "-") return NO_CODE;
  if (!/^[0-9a-f]{32}$/.test(digits)) throw new Mistyped("a coat code is 32 hex digits, or empty");
  return [digits.slice(0, 16), digits.slice(16)].map(half => BigInt(`0x${half}`));
}

function readWhole(typed, most, other = "") {
  const digits = typed.trim(), isWhole = /^\d+$/.test(digits) && Number(digits) <= most;
  if (!isWhole) throw new Mistyped(`a whole number up to ${grouped(most)}${other} belongs here`);
  return Number(digits);
}

// As its number, and where dates are known as its date or the word `today`.
function readDay(typed) {
  const text = typed.trim(), day = (Date.parse(text) - DAY_ONE) / MILLISECONDS + 1;
  const isNumber = /^\d+$/.test(text) && Number(text) <= MAX_DAY;
  if (isNumber || !hasDates) return readWhole(text, MAX_DAY);
  if (text === "today" && today()) return today();
  if (isDay(day) && dayText(day) === text) return day;
  throw new Mistyped(`a date from ${dayText(1)} to ${dayText(MAX_DAY)}, today or the number of a day belongs here`);
}

// Hundredths or bits; with a point a radius is in units of measures.
function readRadius(typed, { name }) {
  const units = /^(\d+)[.,](\d\d)$/.exec(typed.trim());
  const other = name === "bits" ? "" : ", or one with a point such as 20.00,";
  if (units && name === "bits") throw new Mistyped("a radius by bits is a whole number");
  return readWhole(units ? units[1] + units[2] : typed, ANY_DISTANCE, other);
}

// The herd

// What an index holds at a moment, with the image to come back to it.
class Herd {
  constructor(index, name) {
    this.name = name;
    this.image = index.write();
    this.table = index.table();
    const tags = index.range(ANY_PROFILE, ANY_DISTANCE, ANY_DAY).map(({ tag }) => tag);
    const dues = duesOf(index, tags)?.each ?? tags.map(tag => duesOf(index, [tag])?.total ?? null);
    this.head = tags.map((tag, i) => ({ tag, ...index.lookUp(tag), dues: dues[i] }));
    this.head.sort((a, b) => a.tag < b.tag ? -1 : 1);
    this.byTag = new Map(this.head.map(head => [head.tag, head]));
    // How far the others are from the head of the lowest tag, which leads the first lot.
    const away = this.head.length ? index.range(this.head[0], ANY_DISTANCE, ANY_DAY) : [{ distance: 0 }];
    this.away = away.map(({ distance }) => distance);
  }

  get metric() { return METRICS[this.table.metric]; }
  get capacity() { return 1 << this.table.order; }
  get lastDay() { return this.head.reduce((last, { day }) => Math.max(last, day), 1); }
  get hasCodes() { return this.table.metric === 1 || this.head.some(({ code: [first, second] }) => first || second); }
  get removed() { return this.table.buckets.reduce((sum, { built, live }) => sum + built - live, 0); }
  // By this radius all are one lot.
  get farthest() { return this.away.at(-1); }
  // One to begin with, by which the first lot has as many head as there are such lots, more or less.
  get likelyRadius() {
    const place = Math.min(this.away.length - 1, Math.floor(Math.sqrt(this.away.length)));
    return Number(this.away[place].toPrecision(2));
  }

  // All head whose tag has these digits in it.
  matching(digits) {
    return this.head.filter(({ tag }) => tagText(tag).includes(digits));
  }
}

// What an agent asks of head that go together. Without dues where one weighs below 0.
function draftFacts(index, tags, byTag) {
  const kilos = tags.map(tag => byTag.get(tag).measures[0]);
  return {
    head: tags.length, leader: tags[0], tags,
    least: Math.min(...kilos), most: Math.max(...kilos),
    mean: Math.round(kilos.reduce((sum, kilo) => sum + kilo, 0) / kilos.length),
    dues: duesOf(index, tags)?.total ?? null,
  };
}

// What head pay, each and in all; null where one weighs below 0.
function duesOf(index, tags) {
  try {
    return index.dues(tags);
  } catch (refusal) {
    if (refusal.number !== NO_DUES) throw refusal;
    return null;
  }
}

// Does an add; where it is refused because the head is there, that is taken out and the add done once more. The first
// has then found every other rule kept, and the second is accepted. Gives whether the head was there.
function replacing(index, tag, add) {
  try {
    add();
    return false;
  } catch (refusal) {
    if (refusal.number !== ALREADY_LIVE) throw refusal;
  }
  index.remove(tag);
  add();
  return true;
}

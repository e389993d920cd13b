// Lists of a scale head: read by the call line by line, and what was refused of one told in the words of `herd read`.

const CSV_HEADER = "tag,day,kg,hip,girth,gain,code";
const LINE_FEED = 10, CARRIAGE_RETURN = 13, BEGIN = 64, SHOWN = 40, TOLD_LINES = 10;

const startsWith = (bytes, ...begin) => begin.every((byte, i) => bytes[i] === byte);
const isUtf16 = bytes => startsWith(bytes, 0xff, 0xfe) || startsWith(bytes, 0xfe, 0xff);
// No image, which has a zero among its first bytes: that of its form.
const isText = bytes => isUtf16(bytes) || (bytes.length > 0 && !bytes.subarray(0, BEGIN).includes(0));
// A character for each byte.
const charactersOf = bytes => Array.from(bytes, byte => String.fromCharCode(byte)).join("");

// A list as the call reads it, and what was put right for that: a spreadsheet may write a byte order mark, carriage
// returns, no line feed at the end.
function tidied(bytes) {
  if (isUtf16(bytes)) throw new Mistyped("it is saved as UTF-16; save it as UTF-8, in a spreadsheet as CSV UTF-8");
  const from = startsWith(bytes, 0xef, 0xbb, 0xbf) ? 3 : 0, isClosed = bytes.at(-1) === LINE_FEED;
  const closed = [...bytes.subarray(from), ...(isClosed ? [] : [LINE_FEED])];
  const list = Uint8Array.from(closed.filter((byte, i) => byte !== CARRIAGE_RETURN || closed[i + 1] !== LINE_FEED));
  const putRight = [[from > 0, "a byte order mark"], [!isClosed, "a last line without its line feed"],
    [list.length < closed.length, "carriage returns"]].filter(([isDone]) => isDone).map(([, words]) => words);
  return { list, putRight };
}

function* linesOf(bytes) {
  for (let from = 0, to; from < bytes.length; from = to) {
    to = bytes.indexOf(LINE_FEED, from) + 1 || bytes.length;
    yield bytes.subarray(from, to);
  }
}

// Reads a list. A refused line is told, and the next one read; without the header none is, nor in a full herd, unless
// those that are there are weighed again.
function readList(index, bytes, day, mayReplace) {
  const [header, ...lines] = linesOf(bytes);
  const read = { added: 0, replaced: 0, refused: [], hasEnded: false, unread: 0 };
  readHeader(index, header, day);
  for (const [i, line] of lines.entries()) {
    const text = charactersOf(line.subarray(0, -1));
    const add = () => index.readLine(new Uint8Array([...header, ...line]), day);
    try {
      const wasThere = mayReplace ? replacing(index, BigInt(`0${/^\d{15}/.exec(text) ?? ""}`), add) : add();
      read[wasThere ? "replaced" : "added"] += 1;
    } catch (refusal) {
      if (!(refusal instanceof Refusal) || refusal.number === BAD_DAY) throw refusal;
      read.refused.push(`line ${i + 2}${lineFault(text, refusal)}`);
      if (refusal.number === FULL && !mayReplace) return { ...read, hasEnded: true, unread: lines.length - i - 1 };
    }
  }
  return read;
}

function readHeader(index, header, day) {
  try {
    index.readLine(header, day);
  } catch (refusal) {
    if (refusal.number !== BAD_LIST_HEADER) throw refusal;
    const text = charactersOf(header.subarray(0, -1));
    const csvWords = "it is a list as `herd list --csv` writes it, which `herd read` takes; this is for a scale head's";
    if (text === CSV_HEADER) throw new Mistyped(csvWords);
    const stands = text ? `\`${shownText(text)}\`` : "nothing";
    throw new Mistyped(`line 1: ${stands} stands where \`${LIST_HEADER.trimEnd()}\` belongs`);
  }
}

// What a list came to, a line for each refused one; that which ended the reading is told in any case.
function listWords({ added, replaced, refused, hasEnded, unread }, putRight) {
  const others = refused.slice(0, refused.length - hasEnded), last = refused.slice(others.length);
  const more = (count, what) => count > 0 ? [`${counted(count, "more line was", "more lines were")} ${what}`] : [];
  return [
    `${grouped(added)} added, ${grouped(replaced)} replaced, ${grouped(refused.length)} refused`,
    ...(putRight.length ? [`put right before it was read: ${putRight.join(", ")}`] : []),
    ...others.slice(0, TOLD_LINES), ...more(others.length - TOLD_LINES, "refused"), ...last, ...more(unread, "not read"),
  ].join("\n");
}

// What is wrong in a line that was refused, to be read behind its number. The call says why in a number; its text is
// looked at once more to say in which field.
function lineFault(text, { number, message }) {
  const fields = text.split(";"), isOfNoForm = number === BAD_LIST_LINE, faultOf = FAULTS[number] ?? (() => null);
  if (number === ALREADY_LIVE) return `: ${fields[0]} is in the herd already`;
  if (number === FULL) return ": the herd is full";
  if (isOfNoForm && text.endsWith("\r")) return " ends in a carriage return";
  if (isOfNoForm && !text) return " is empty";
  if (isOfNoForm && fields.length !== 5) return ` has ${counted(fields.length, "field", "fields")}, and 5 belong there`;
  const at = fields.findIndex(faultOf);
  if (at < 0) return `: ${ofHerd(message)}`;
  return `, field ${at + 1}${fields[at] ? `: \`${shownText(fields[at])}\` ${faultOf(fields[at], at)}` : " is empty"}`;
}

// By the number of a refusal: what is wrong with a field and its place, if anything is.
const FAULTS = {
  [BAD_LIST_LINE]: (field, i) => i === 0 ? tagFault(field) : valueFault(field),
  [BAD_TAG]: (field, i) => i > 0 ? null
    : field.startsWith("000") ? "has country 000" : "has a national number above 274877906943",
  [BAD_MEASURE]: (field, i) => i === 0 || Number(field.replace(/\D/g, "")) <= MAX_MEASURE ? null
    : field.startsWith("-") ? "is below -10000,00" : "is above 10000,00",
};

const digitsText = count => counted(count, "digit", "digits");

function tagFault(text) {
  const other = /\D/.exec(text);
  return other ? strayFault(other[0]) : text.length === 15 ? null : `has ${digitsText(text.length)}, and a tag has 15`;
}

// Of what is no minus or none, 1 to 5 digits, a comma and 2 digits.
function valueFault(text) {
  const [, units, mark, behind] = /^-?(\d*)(.?)(.*)$/s.exec(text), other = /\D/.exec(behind);
  if (!mark) return units ? "has no comma with 2 digits after it" : "has no digits";
  if (mark === ".") return "has a point where a comma belongs";
  if (mark !== ",") return strayFault(mark);
  if (other) return strayFault(other[0]);
  if (!units) return "has no digit before its comma";
  if (units.length > 5) return `has ${digitsText(units.length)} before its comma, and at most 5 belong there`;
  return behind.length === 2 ? null : `has ${digitsText(behind.length)} after its comma, and 2 belong there`;
}

function strayFault(character) {
  const byte = `the byte 0x${character.charCodeAt(0).toString(16).padStart(2, "0")}`;
  const named = { " ": "a space", "\t": "a tab", "\r": "a carriage return" };
  return `has ${named[character] ?? (/[!-~]/.test(character) ? `\`${character}\`` : byte)}, which does not belong there`;
}

// A character for each byte as the text that it is, cut where it is long; what cannot be seen is shown by its number.
function shownText(text) {
  const bytes = Uint8Array.from(text, character => character.charCodeAt(0));
  const whole = [...new TextDecoder("utf-8", { ignoreBOM: true }).decode(bytes)];
  const named = { "\t": "\\t", "\r": "\\r", "\0": "\\0" };
  const seen = character => character === " " || !/[\p{C}\p{Z}]/u.test(character) ? character
    : named[character] ?? `\\u{${character.codePointAt(0).toString(16)}}`;
  return whole.slice(0, SHOWN).map(seen).join("") + (whole.length > SHOWN ? "…" : "");
}

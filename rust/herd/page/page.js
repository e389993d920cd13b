// What is shown. `herd` is what the index holds; each change makes a new one, and one can go back to the images before.

const DRAFT_STEPS = 400, UNDONE = 20, MATCHES = 6;

let index, module, isDayTyped = false, listDay = null;
let herd = null, saved = null, radius = 0, lots = [], lotOf = new Map(), chosenLot = null;
const past = [];

// Elements

const at = id => document.getElementById(id);

function filled(element, attributes, children) {
  Object.entries(attributes).forEach(([name, value]) => element.setAttribute(name, value));
  element.append(...children);
  return element;
}

const html = (name, attributes = {}, ...children) => filled(document.createElement(name), attributes, children);
const svg = (name, attributes = {}, ...children) =>
  filled(document.createElementNS("http://www.w3.org/2000/svg", name), attributes, children);

function button(words, act, kind = "plain") {
  const made = html("button", { type: "button", class: kind }, words);
  made.addEventListener("click", act);
  return made;
}

const tagButton = tag => button(tagText(tag), () => chooseHead(tag));
const fieldsOf = prefix => MEASURES.map(name => at(`${prefix}-${name}`));

function tell(words, isRefused = false) {
  at("told").textContent = words;
  at("message").hidden = !words;
  at("message").classList.toggle("refused", isRefused);
}

// What is wrong with a field, in words beside it; they go when it is typed in.
function blame(field, words) {
  forgive(field);
  const told = html("span", { class: "wrong", id: `${field.id}-wrong` }, words);
  filled(field, { "aria-invalid": true, "aria-describedby": told.id }, []).after(told);
}

function forgive(field) {
  at(`${field.id}-wrong`)?.remove();
  ["aria-invalid", "aria-describedby"].forEach(name => field.removeAttribute(name));
}

const forgiveAll = () => document.querySelectorAll("[aria-invalid]").forEach(forgive);

// What a field holds. One that cannot be read is blamed, which ends the act that reads it.
function typed(field, read) {
  try {
    return read(field.value);
  } catch (fault) {
    if (!(fault instanceof Mistyped)) throw fault;
    throw Object.assign(fault, { field });
  }
}

// A number of a call's own type; what rules it has to keep is for the call to say.
const typedWhole = (field, most) => typed(field, text => readWhole(text, most));

// A refused call's words, or those on a field that cannot be read; any other error is a fault of this page.
function wordsOf(fault) {
  if (fault instanceof Refusal) return ofHerd(fault.message);
  if (fault instanceof Mistyped) return fault.message;
  throw fault;
}

// Tells of a fault beside the field that caused it: by the number of a refused call, or the one that cannot be read.
function blameFor(fault, fields) {
  const words = wordsOf(fault), field = fault.field ?? fields[fault.number];
  if (field) blame(field, words);
  return words;
}

// The first of some measures that is past the range.
const farMeasure = fields => fields.find(({ value }) => Math.abs(Number(value.replace(",", "."))) * 100 > MAX_MEASURE);

// Drafting

// A worker that drafts, asked one thing at a time. Where none can start, the page's own index does it.
class Drafter {
  constructor() {
    const source = ["index", "drafter"].map(id => at(id).textContent).join("\n");
    try {
      this.worker = new Worker(URL.createObjectURL(new Blob([source], { type: "text/javascript" })));
      this.worker.onerror = () => this.giveUp();
      this.worker.onmessage = ({ data }) => this.done(data);
    } catch {
      this.worker = null;
    }
  }

  ask({ image }, radii) {
    return new Promise(done => {
      Object.assign(this, { radii, done });
      if (this.worker) this.worker.postMessage({ module, image, radii });
      else setTimeout(() => done(index.lots(radii)));
    });
  }

  giveUp() {
    this.worker = null;
    this.done?.(index.lots(this.radii));
  }
}

// Runs an act once more when it was asked for while it ran, however often.
function whenFree(act) {
  let isRunning = false, isAsked = false;
  return async () => {
    isAsked = true;
    if (isRunning) return;
    isRunning = true;
    for (; isAsked; await act()) isAsked = false;
    isRunning = false;
  };
}

// One for the slider and one for the curve, which takes longer.
const drafters = [new Drafter(), new Drafter()];

const draft = whenFree(async () => {
  const asked = herd, reply = await drafters[0].ask(asked, [radius]);
  if (asked === herd) showLots(reply);
});

const drawPlot = whenFree(async () => {
  const asked = herd, last = MAX_RADII - 1;
  const radii = Array.from({ length: MAX_RADII }, (_, i) => Math.floor(asked.farthest * i * i / (last * last)));
  const { byRadius } = await drafters[1].ask(asked, [...new Set(radii)]);
  if (asked !== herd) return;
  plot.show(herd, byRadius);
  plot.mark(radius);
});

// The slider goes by the square root: small radii are what lots are about. A number is left as it is being typed.
function chooseRadius(chosen) {
  radius = Math.min(ANY_DISTANCE, Math.max(0, Math.round(chosen)));
  if (document.activeElement !== at("radius")) at("radius").value = radius;
  at("slide").value = herd.farthest ? DRAFT_STEPS * Math.sqrt(radius / herd.farthest) : 0;
  forgive(at("radius"));
  plot.mark(radius);
  draft();
}

function typeRadius() {
  try {
    chooseRadius(typed(at("radius"), text => readRadius(text, herd.metric)));
  } catch (fault) {
    blameFor(fault, {});
  }
}

function showLots({ byRadius: [{ radius, lots: count, largest }], lots: listed }) {
  lots = listed.map((tags, i) => ({ lot: i + 1, ...draftFacts(index, tags, herd.byTag) }));
  lotOf = new Map(lots.flatMap(({ lot, tags }) => tags.map(tag => [tag, lot])));
  if (chosenLot > lots.length) chosenLot = null;
  const words = `${counted(count, "lot", "lots")}, the largest of ${grouped(largest)} head`;
  at("drafted").textContent = words;
  at("slide").setAttribute("aria-valuetext", `radius ${grouped(radius)}: ${words}`);
  lotTable.show(lots);
  foundTable.show(foundTable.rows);
  showHead();
}

function chooseLot(lot) {
  chosenLot = lot;
  showHead();
  at("all-title").focus();
}

const duesText = (dues, before = "") => dues === null ? `${before}below 0 kg` : moneyText(dues);
const duesColumn = { name: "dues", width: 12, by: ({ dues }) => dues ?? -1, text: ({ dues }) => duesText(dues) };

const lotTable = new LongTable(at("lot-rows"), [
  { name: "lot", width: 7, by: ({ lot }) => lot, text: ({ lot }) => button(grouped(lot), () => chooseLot(lot)) },
  { name: "head", width: 7, by: ({ head }) => head, text: ({ head }) => grouped(head) },
  { name: "kg least", width: 9, by: ({ least }) => least, text: ({ least }) => measureText(least) },
  { name: "mean", width: 8, by: ({ mean }) => mean, text: ({ mean }) => measureText(mean) },
  { name: "most", width: 8, by: ({ most }) => most, text: ({ most }) => measureText(most) },
  duesColumn,
  { name: "leader", width: 17, words: true, by: ({ leader }) => leader, text: ({ leader }) => tagButton(leader) },
]);

const plot = new Plot(at("plot"), chooseRadius);

// Head

const headColumns = [
  { name: "tag", width: 17, words: true, by: ({ tag }) => tag, text: ({ tag }) => tagButton(tag) },
  { name: "day", width: hasDates ? 12 : 7, by: ({ day }) => day, text: ({ day }) => dayText(day) },
  ...MEASURES.map((name, i) => (
    { name, width: 9, by: ({ measures }) => measures[i], text: ({ measures }) => measureText(measures[i]) })),
  { name: "lot", width: 6, by: ({ tag }) => lotOf.get(tag), text: ({ tag }) => grouped(lotOf.get(tag) ?? "") },
];
const distanceColumn = {
  name: "distance", width: 10, by: ({ distance }) => distance, text: ({ distance }) => grouped(distance),
};
const codeColumn = {
  name: "coat code", width: 36, words: true, by: ({ code }) => codeText(code), text: ({ code }) => codeText(code),
};

const headTable = new LongTable(at("head-rows"), []), foundTable = new LongTable(at("found-rows"), []);

function layOutHead() {
  const [tag, ...rest] = headColumns, codes = herd.hasCodes ? [codeColumn] : [];
  headTable.layOut([tag, ...rest, duesColumn, ...codes]);
  foundTable.layOut([tag, distanceColumn, ...rest, ...codes]);
}

function showHead() {
  const digits = at("filter").value.replace(/\s/g, "");
  const isShown = ({ tag }) => tagText(tag).includes(digits) && (!chosenLot || lotOf.get(tag) === chosenLot);
  const rows = herd.head.filter(isShown);
  headTable.show(rows);
  const lot = chosenLot ? `, lot ${grouped(chosenLot)} alone` : "";
  at("filtered").textContent = `${grouped(rows.length)} of ${grouped(herd.head.length)} head${lot}`;
  at("every-lot").disabled = !chosenLot;
}

// From anywhere on the page: as if its tag had been typed.
function chooseHead(tag) {
  at("like-tag").value = at("tag").value = tagText(tag);
  likeTag();
  showCrate();
  at("search-title").focus();
}

// Search

// Blank fields are those of the last profile, if there is one. By coat codes measures do not count, and may be blank.
function typedProfile(prefix, last = herd.table.metric === DIFFERING_BITS ? ANY_PROFILE : null) {
  const isBlank = field => last && !field.value.trim();
  const measure = (field, i) => isBlank(field) ? last.measures[i] : typed(field, readMeasure);
  const code = at(`${prefix}-code`);
  return { measures: fieldsOf(prefix).map(measure), code: isBlank(code) ? last.code : typed(code, readCode) };
}

function likeTag() {
  const digits = at("like-tag").value.replace(/\s/g, ""), found = digits ? herd.matching(digits) : [];
  const words = !digits || found.length === 1 ? "" : `${grouped(found.length)} head have ${digits} in their tag`;
  const some = found.length === 1 ? [] : found.slice(0, MATCHES);
  at("matches").replaceChildren(words, ...some.map(({ tag }) => tagButton(tag)));
  fillProfile("like", found.length === 1 ? found[0] : null);
  search();
}

function fillProfile(prefix, head) {
  fieldsOf(prefix).forEach((field, i) => { field.value = head ? measureText(head.measures[i]) : ""; });
  at(`${prefix}-code`).value = head ? codeText(head.code) : "";
}

function searched() {
  const query = typedProfile("like");
  const since = at("since").value.trim() ? typed(at("since"), readDay) : ANY_DAY;
  return at("by-count").checked ? index.nearest(query, typedWhole(at("count"), ANY_DISTANCE), since)
    : index.range(query, typed(at("within"), text => readRadius(text, herd.metric)), since);
}

function search() {
  const likes = [...fieldsOf("like"), at("like-code")], isAsked = likes.some(({ value }) => value.trim());
  [...likes, ...["count", "within", "since"].map(at)].forEach(forgive);
  try {
    const found = isAsked ? searched() : [];
    foundTable.show(found.map(({ tag, distance }) => ({ ...herd.byTag.get(tag), distance })));
    at("found").textContent = isAsked ? `${grouped(found.length)} head found, the nearest first`
      : "Type a tag, or the measures of a profile.";
  } catch (fault) {
    const words = blameFor(fault, { [NO_COUNT]: at("count"), [BAD_MEASURE]: farMeasure(fieldsOf("like")) });
    foundTable.show([]);
    at("found").textContent = `Not searched: ${words}`;
  }
}

// Changes

// An act that is refused, at whichever of its calls, leaves the herd as it was. Gives whether it was done.
function change(name, act, fields = {}) {
  const before = herd;
  forgiveAll();
  try {
    const words = act();
    take(new Herd(index, name));
    if (before) past.push({ name: before.name, image: before.image });
    if (past.length > UNDONE) past.shift();
    at("undo").disabled = past.length === 0;
    tell(words);
    return true;
  } catch (fault) {
    if (before) index.load(before.image);
    tell(`Refused: ${blameFor(fault, fields)}`, true);
    return false;
  }
}

function undo() {
  const { name, image } = past.pop();
  index.load(image);
  take(new Herd(index, name));
  at("undo").disabled = past.length === 0;
  tell("The last change was undone");
}

function typedStart() {
  const weights = fieldsOf("weight").map(field => typedWhole(field, ANY_DISTANCE));
  return [Number(at("order").value), Number(at("metric").value), weights];
}

const heavyWeight = () => fieldsOf("weight").find(({ value }) => Number(value) > MAX_WEIGHT);

function begin(head) {
  change(head.length ? herd.name : "new.img", () => {
    index.fresh(...typedStart());
    head.forEach(({ tag, measures, code, day }) => index.add(tag, { measures, code }, day));
    return head.length ? "The herd was built again" : "An empty herd was started";
  }, { [BAD_WEIGHT]: heavyWeight(), [FULL]: at("order") });
}

async function openFile(file) {
  const bytes = new Uint8Array(await file.arrayBuffer());
  if (!isText(bytes)) openImage(file.name, bytes, `${file.name} was opened`);
  else change(herd?.name ?? file.name.replace(/(\.\w+)?$/, ".img"), () => addList(bytes), { [BAD_DAY]: at("list-day") });
}

function openImage(name, bytes, words) {
  const load = () => {
    try {
      index.load(bytes);
    } catch (refusal) {
      throw new Mistyped(`${name} is no herd image that can be opened. ${imageFault(refusal)}`);
    }
    listDay = null;
    return words;
  };
  if (change(name, load)) saved = herd;
}

// By number and name; of a tree's fault by slot too, counted from 0 over all of the image.
function imageFault(refusal) {
  if (!(refusal instanceof Refusal)) throw refusal;
  const isOfTree = [DUPLICATE_TAG, MISPLACED_ITEM, BAD_THRESHOLD].includes(refusal.number);
  const slot = isOfTree ? `, slot ${grouped(refusal.reply.slot)}` : "";
  return `${refusal.number} ${refusal.code}${slot}: ${ofHerd(refusal.message)}`;
}

function addList(bytes) {
  const day = typed(at("list-day"), readDay), { list, putRight } = tidied(bytes);
  if (!herd) index.fresh(...typedStart());
  const words = listWords(readList(index, list, day, at("list-again").checked), putRight);
  listDay = day;
  return words;
}

function save() {
  const link = html("a", { download: herd.name, href: URL.createObjectURL(new Blob([herd.image])) });
  link.click();
  setTimeout(() => URL.revokeObjectURL(link.href), 1000);
  saved = herd;
  tell(`${herd.name} was saved, where the browser puts what it downloads`);
}

// The crate: of a head that is there, blank fields stay as they were.

function headInCrate() {
  const digits = at("tag").value.replace(/\s/g, "");
  return /^\d{15}$/.test(digits) ? herd.byTag.get(BigInt(digits)) : undefined;
}

function showCrate() {
  const head = headInCrate(), isTyped = at("tag").value.trim() !== "";
  fieldsOf("new").forEach((field, i) => { field.placeholder = head ? measureText(head.measures[i]) : ""; });
  at("new-code").placeholder = head ? codeText(head.code) : "";
  at("weigh").textContent = head ? "Weigh again" : "Add";
  at("remove").disabled = !head;
  at("in-crate").textContent = head ? `In the herd, weighed on ${hasDates ? "" : "day "}${dayText(head.day)}. Blank fields stay as they were.`
    : isTyped ? "Not in the herd." : "";
}

// Unless one was typed: the day of the last list, or today where dates are known, or the herd's last.
function showDay() {
  if (!isDayTyped) at("day").value = dayText(listDay ?? today() ?? herd.lastDay);
}

function weighTyped() {
  change(herd.name, () => {
    const tag = typed(at("tag"), readTag), profile = typedProfile("new", headInCrate());
    const day = typed(at("day"), readDay);
    const wasThere = replacing(index, tag, () => index.add(tag, profile, day));
    fillProfile("new", null);
    return `${tagText(tag)} was ${wasThere ? "weighed again" : "added"}`;
  }, { [BAD_TAG]: at("tag"), [FULL]: at("tag"), [BAD_MEASURE]: farMeasure(fieldsOf("new")), [BAD_DAY]: at("day") });
}

function removeTyped() {
  change(herd.name, () => {
    const tag = typed(at("tag"), readTag);
    index.remove(tag);
    return `${tagText(tag)} was removed`;
  }, { [NOT_LIVE]: at("tag") });
}

// A herd as a whole

function take(next) {
  const before = herd;
  herd = next;
  document.body.classList.remove("without-herd");
  document.body.classList.toggle("with-codes", herd.hasCodes);
  document.body.style.setProperty("--rows", Math.min(12, Math.max(5, herd.head.length)));
  if (!before) at("files").open = false;
  if (before?.hasCodes !== herd.hasCodes) layOutHead();
  showDay();
  showSummary();
  showHead();
  showCrate();
  search();
  // Another herd is drafted by the same radius, if that can say anything of it.
  chooseRadius(before?.farthest && before.metric === herd.metric ? radius : herd.likelyRadius);
  drawPlot();
}

function showSummary() {
  const { table, head, metric, image } = herd;
  const fromTo = (list, text) => list.length === 0 ? "none"
    : [...new Set([Math.min(...list), Math.max(...list)])].map(text).join(" to ");
  const facts = [
    ["Head", `${grouped(head.length)} of at most ${grouped(herd.capacity)}`],
    ["Kilos", fromTo(head.map(({ measures }) => measures[0]), measureText)],
    ["Days", fromTo(head.map(({ day }) => day), dayText)],
    ["Dues of all", duesText(duesOf(index, head.map(({ tag }) => tag))?.total ?? null, "none: a head is ")],
    ["Likeness", `${metric.name}: ${metric.words}, in ${metric.unit}`],
    ["Weights", MEASURES.map((name, i) => `${name} ${table.weights[i]}`).join(", ")],
    ["Image", `${grouped(image.length)} bytes, ${grouped(herd.removed)} removed head not cleared yet`],
  ];
  document.title = `${herd.name}, a herd of ${grouped(head.length)} head`;
  at("name").textContent = herd.name;
  at("size").textContent = `${grouped(head.length)} head`;
  at("unit").textContent = `in ${metric.unit}${metric.name === "bits" ? "" : ", or 10.00"}`;
  at("facts").replaceChildren(...facts.flatMap(([name, value]) => [html("dt", {}, name), html("dd", {}, value)]));
  at("buckets").replaceChildren(...table.buckets.map(bucketRow));
  showTrees();
}

function bucketRow({ bucket, room, built, live }) {
  const part = (kind, slots) => html("span", { class: kind, style: `width: ${100 * slots / room}%` });
  const bar = html("div", { class: "bar" }, part("live", live), part("dead", built - live));
  const numbers = [bucket, room, built, live, built - live].map(grouped);
  return html("tr", {}, ...numbers.map(number => html("td", {}, number)), html("td", {}, bar));
}

// The largest first, and only while they can be seen.
function showTrees() {
  const inUse = at("stored").open && herd ? herd.table.buckets.filter(({ built }) => built > 0).reverse() : [];
  const trees = inUse.map(bucket => new Tree(bucket, index.slots(bucket)));
  at("trees").replaceChildren(...trees.map(({ figure }) => figure));
  trees.forEach(tree => tree.draw());
}

// On paper: the lots, each a table with all of its head, of which the page shows only those in sight.
function layOutSheet() {
  if (herd) at("sheet").replaceChildren(...lots.map(lotSheet));
}

function lotSheet({ lot, head, least, mean, most, dues, tags }) {
  const today = new Date(), day = [today.getFullYear(), today.getMonth() + 1, today.getDate()];
  const date = day.map(number => String(number).padStart(2, "0")).join("-");
  const title = `Lot ${grouped(lot)} of ${grouped(lots.length)}: ${grouped(head)} head`;
  const facts = `${measureText(least)} to ${measureText(most)} kg, mean ${measureText(mean)}; dues ${duesText(dues)}`;
  const names = ["tag", "day", ...MEASURES, "dues"];
  const row = ({ tag, day, measures, dues }) => [tagText(tag), dayText(day), ...measures.map(measureText), duesText(dues)];
  const cells = (kind, texts) => html("tr", {}, ...texts.map(text => html(kind, {}, text)));
  const above = html("tr", {}, html("th", { colspan: names.length, class: "words" },
    html("b", {}, title), ` · ${facts} · ${herd.name}, radius ${grouped(radius)}, ${date}`));
  return html("table", {}, html("thead", {}, above, cells("th", names)),
    html("tbody", {}, ...tags.map(tag => cells("td", row(herd.byTag.get(tag))))));
}

// The page

function fromBase64(text) {
  const characters = atob(text.trim()), bytes = new Uint8Array(characters.length);
  for (let i = 0; i < bytes.length; i++) bytes[i] = characters.charCodeAt(i);
  return bytes;
}

function listen() {
  const on = (id, event, act) => at(id).addEventListener(event, act);
  const submit = (id, act) => on(id, "submit", event => { event.preventDefault(); act(); });
  on("slide", "input", () => chooseRadius(herd.farthest * (at("slide").value / DRAFT_STEPS) ** 2));
  on("radius", "input", typeRadius);
  on("like-tag", "input", likeTag);
  on("filter", "input", showHead);
  on("every-lot", "click", () => chooseLot(null));
  on("tag", "input", showCrate);
  on("day", "input", () => { isDayTyped = at("day").value.trim() !== ""; });
  on("remove", "click", removeTyped);
  on("save", "click", save);
  on("undo", "click", undo);
  on("print", "click", () => window.print());
  on("close", "click", () => tell(""));
  on("rebuild", "click", () => begin(herd.head));
  on("stored", "toggle", showTrees);
  on("file", "change", () => { [...at("file").files].forEach(openFile); at("file").value = ""; });
  submit("beginning", () => begin([]));
  submit("weighing", weighTyped);
  submit("searching", search);
  submit("opening", () => {});
  [...fieldsOf("like"), at("like-code")].forEach(field => field.addEventListener("input", () => {
    at("like-tag").value = "";
    at("matches").replaceChildren();
    search();
  }));
  ["by-count", "by-radius", "since"].forEach(id => on(id, "input", search));
  on("count", "input", () => { at("by-count").checked = true; search(); });
  on("within", "input", () => { at("by-radius").checked = true; search(); });
  // before the field's own, which may blame it anew
  document.addEventListener("input", ({ target }) => forgive(target), true);
  window.addEventListener("dragover", event => event.preventDefault());
  window.addEventListener("drop", event => {
    event.preventDefault();
    [...event.dataTransfer.files].forEach(openFile);
  });
  window.addEventListener("beforeprint", layOutSheet);
  window.addEventListener("afterprint", () => at("sheet").replaceChildren());
  window.addEventListener("beforeunload", event => { if (herd !== saved) event.preventDefault(); });
}

async function openPage() {
  at("order").append(...Array.from({ length: MAX_ORDER + 1 }, (_, order) =>
    html("option", { value: order }, `${grouped(1 << order)} head`)));
  at("order").value = MAX_ORDER;
  at("metric").append(...METRICS.map(({ name, words }, i) => html("option", { value: i }, `${name}: ${words}`)));
  at("list-day").value = dayText(today() ?? 1);
  document.body.classList.toggle("with-dates", hasDates);
  // the keys of a phone for a number may be without a dash
  if (hasDates) ["day", "list-day", "since"].forEach(id => { at(id).inputMode = "text"; });
  module = fromBase64(at("module").textContent);
  index = await Index.start(module);
  listen();
  const image = fromBase64(at("image").textContent);
  if (image.length) openImage(at("image").dataset.name, image, "");
  document.body.classList.remove("starting");
}

openPage();

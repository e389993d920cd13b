// The tree of each bucket.

// In pixels: a row's height; the most that a slot is wide in the whole tree, and in one drawn alone; the least that is
// drawn; a letter; the least that a tree has for its words.
const LEVEL = 34, WIDEST = 60, WIDEST_ALONE = 150, NARROWEST = 1.5, LETTER = 6.8, FIGURE = 300;

// Of a tree of n slots the first is the vantage point, n / 2 slots after it the left half, the others the right half.
function halves(tree) {
  const left = Math.floor(tree.size / 2);
  const half = (side, first, size) => ({ side, first, size, above: tree });
  return [half("left", tree.first + 1, left), half("right", tree.first + 1 + left, tree.size - 1 - left)];
}

// A tree's slots that are wide enough, below each its left half at the left end and its right half at the right end.
function placed(tree, x, row, unit) {
  const width = tree.size * unit;
  if (tree.size === 0 || width < NARROWEST) return [];
  const [left, right] = halves(tree);
  const below = [placed(left, x, row + 1, unit), placed(right, x + width - right.size * unit, row + 1, unit)];
  return [{ tree, x, row, width }, ...below.flat()];
}

// As much of a tag's end as there is room for.
function tagEnd(tag, letters) {
  if (letters >= tag.length) return tag;
  return letters < 3 ? "" : tag.slice(-Math.min(letters, 6));
}

class Tree {
  constructor(bucket, slots) {
    this.slots = slots;
    this.whole = { side: "whole", first: 0, size: bucket.built, above: null };
    this.top = this.chosen = this.whole;
    this.path = html("div", { class: "path controls" });
    this.picture = svg("svg", { role: "group", "aria-label": `the tree of bucket ${bucket.bucket}` });
    this.note = html("p", { class: "quiet controls" });
    this.words = html("p", { class: "words", "aria-live": "polite" });
    const sizes = `${counted(bucket.built, "slot", "slots")}, ${grouped(bucket.built - bucket.live)} dead`;
    const caption = html("figcaption", {}, html("strong", {}, `Bucket ${bucket.bucket}`),
      html("span", { class: "quiet" }, sizes));
    this.figure = html("figure", {}, caption, this.path, this.picture, this.note, this.words);
    this.picture.addEventListener("click", event => this.clicked(event));
    this.picture.addEventListener("keydown", event => this.typed(event));
  }

  slot(tree) {
    return this.slots[tree.first];
  }

  clicked(event) {
    const slot = event.target.closest(".slot");
    if (slot) this.choose(this.drawn.get(Number(slot.dataset.slot)));
  }

  // A slot with halves is drawn alone with them.
  choose(tree) {
    this.chosen = tree;
    if (tree.size > 1) this.top = tree;
    this.draw();
  }

  typed(event) {
    const { above } = this.chosen, [left, right] = above ? halves(above) : [];
    const next = { ArrowDown: halves(this.chosen)[0], ArrowUp: above, ArrowLeft: left, ArrowRight: right };
    if (event.key === "Enter" || event.key === " ") this.choose(this.chosen);
    else if (event.key in next) this.move(next[event.key]);
    else return;
    event.preventDefault();
  }

  // To a slot that is drawn, or to the one above all that are.
  move(tree) {
    if (!tree || tree.size === 0) return;
    if (tree === this.top.above) this.top = tree;
    else if (!this.drawn.has(tree.first)) return;
    this.chosen = tree;
    this.draw();
  }

  draw() {
    const hadFocus = this.picture.contains(document.activeElement);
    const widest = this.top === this.whole ? WIDEST : WIDEST_ALONE;
    const width = Math.min(Math.max(240, at("trees").clientWidth), this.top.size * widest);
    const boxes = placed(this.top, 0, 0, width / this.top.size);
    const height = LEVEL * (1 + Math.max(...boxes.map(box => box.row)));
    this.drawn = new Map(boxes.map(box => [box.tree.first, box.tree]));
    this.figure.style.width = `${Math.max(width, FIGURE)}px`;
    filled(this.picture, { viewBox: `0 0 ${width} ${height}`, width, height }, []);
    this.picture.replaceChildren(...boxes.map(box => this.box(box)));
    this.path.replaceChildren(...this.pathUp());
    const isCut = boxes.length < this.top.size;
    this.note.hidden = !isCut;
    this.note.textContent = isCut ? `${grouped(boxes.length)} of ${grouped(this.top.size)} slots are wide enough ` +
      "to be drawn; choose one to see those below it." : "";
    this.words.replaceChildren(...this.told(this.chosen, tagButton));
    if (hadFocus) this.picture.querySelector(".chosen")?.focus({ preventScroll: true });
  }

  pathUp() {
    const above = [];
    for (let tree = this.top.above; tree; tree = tree.above) above.unshift(tree);
    const name = tree => tree.above ? tagEnd(tagText(this.slot(tree).tag), 6) : "whole tree";
    return above.map(tree => button(`↑ ${name(tree)}`, () => this.choose(tree)));
  }

  box({ tree, x, row, width }) {
    const slot = this.slot(tree), isChosen = tree.first === this.chosen.first;
    const kinds = ["slot", tree.side, slot.isLive ? "live" : "dead", isChosen ? "chosen" : ""].join(" ").trim();
    const words = this.told(tree, tagText).join("");
    const group = svg("g", {
      class: kinds, "data-slot": tree.first, role: "button", tabindex: isChosen ? 0 : -1, "aria-label": words,
    });
    const edge = width > 4 ? 1 : 0;
    const frame = { x: x + edge, y: LEVEL * row + 1, width: width - 2 * edge, height: LEVEL - 2, rx: 2 * edge };
    group.append(svg("title", {}, words), svg("rect", frame));
    group.append(...this.labels(tree, slot, x + width / 2, LEVEL * row, Math.floor((width - 6) / LETTER)));
    return group;
  }

  labels(tree, slot, x, y, letters) {
    const tag = tagEnd(tagText(slot.tag), letters), threshold = `≤ ${grouped(slot.threshold)}`;
    const isTold = tree.size > 1 && threshold.length <= letters;
    const line = (kind, below, words) => svg("text", { class: kind, x, y: y + below }, words);
    const lines = [line("tag", isTold ? 14 : 21, tag), ...(isTold ? [line("threshold", 27, threshold)] : [])];
    return tag ? lines : [];
  }

  // In words, with the tag of a live slot as it is wanted.
  told(tree, tagOf) {
    const slot = this.slot(tree), [left, right] = halves(tree).map(half => half.size);
    const state = slot.isLive ? "live" : "removed, still guides searches";
    const below = tree.size === 1 ? "no slot is below it." : `vantage point of ${grouped(tree.size)} slots. ` +
      `Threshold ${grouped(slot.threshold)}: ${counted(left, "slot", "slots")} in the left half ` +
      `(within the threshold), ${grouped(right)} in the right half.`;
    return [slot.isLive ? tagOf(slot.tag) : tagText(slot.tag), ` (${state}): ${below}`];
  }
}

const svg = document.querySelector("#sheet svg");
const told = document.getElementById("told");
const found = document.getElementById("found");
const find = document.getElementById("find");
const byKey = new Map(ways.map((way) => [way.key, way]));
const full = svg ? svg.getAttribute("viewBox").split(" ").map(Number) : [0, 0, 1, 1];
let view = full.slice();
let chosen = null;
let shown = null;

// ---- what is lifted

function show(way) {
  shown = way;
  // Where no picture would be clear there are only words.
  if (svg) lift(way);
  told.replaceChildren();
  if (!way) return;
  line(way.name, "name");
  for (const note of way.notes) line(note, "note");
  for (const words of way.parts) line(words, "part");
  for (const words of way.words) line(words, "way");
  told.scrollTop = 0;
}

function line(text, name) {
  const paragraph = document.createElement("p");
  fill(paragraph, text);
  paragraph.className = name;
  told.append(paragraph);
}

// Words in which a name that is read from right to left stands between these two signs: it is to turn
// nothing round but itself.
function fill(element, text) {
  text.split(/[\u2068\u2069]/).forEach((piece, turn) => {
    const part = turn % 2 ? document.createElement("bdi") : null;
    if (part) part.textContent = piece;
    element.append(part || piece);
  });
}

const plain = (text) => text.replace(/[\u2068\u2069]/g, "").trim().replace(/\s+/g, " ").toLowerCase();

function lift(way) {
  const lifted = new Set(way ? way.lifted : []);
  const stretches = new Set(way ? way.stretches : []);
  svg.classList.toggle("chosen", way !== null);
  for (const old of svg.querySelectorAll(".stretch, .cut")) old.remove();
  for (const part of svg.querySelectorAll("[data-way], [data-of], .tap")) {
    // The id and the name of a bundle are lifted with a stretch of it too.
    const of = part.dataset.of;
    part.classList.toggle("lifted", lifted.has(of || part.id) || stretches.has(of));
    part.classList.toggle("partly", stretches.has(part.id));
  }
  for (const key of stretches) stretch(document.getElementById(key), lifted);
}

// Of a bundle that goes on to other taps only what leads to those on the way is lifted: a copy of its lines
// over the dimmed ones, cut off above and below that. Beside the collector nothing is cut.
function stretch(bundle, lifted) {
  const trunk = bundle && bundle.querySelector(".trunk");
  // Of a bundle without length no line is drawn.
  if (!trunk || !trunk.firstElementChild) return;
  const [x, y] = bundle.dataset.joint.split(" ").map(Number);
  const taps = [...bundle.querySelectorAll(".tap")].filter((tap) => lifted.has(tap.id));
  const ends = [y, ...taps.map((tap) => Number(tap.getAttribute("cy")))];
  const half = Number(trunk.firstElementChild.getAttribute("stroke-width")) / 2;
  const [top, bottom] = [Math.min(...ends) - half, Math.max(...ends) + half];
  const [left, right] = [x - ARCH - half, x + ARCH + half];
  const [from, to] = [-full[2], 2 * full[2]];
  const boxes = [[from, top, to - from, bottom - top], [from, from, left - from, to - from], [right, from, to - right, to - from]];
  const cut = made("clipPath", { id: "cut-" + bundle.id, class: "cut" });
  for (const [x, y, width, height] of boxes) cut.append(made("rect", { x, y, width, height }));
  const copy = trunk.cloneNode(true);
  copy.setAttribute("class", "stretch");
  copy.setAttribute("clip-path", `url(#${cut.id})`);
  trunk.after(cut, copy);
}

// How far an arch of a collector rises beside it, at most.
const ARCH = 4;

function made(name, values) {
  const part = document.createElementNS("http://www.w3.org/2000/svg", name);
  for (const [key, value] of Object.entries(values)) part.setAttribute(key, value);
  return part;
}

function choose(key) {
  chosen = byKey.get(key) || null;
  show(chosen);
  found.replaceChildren();
  history.replaceState(null, "", chosen ? "#" + hashOf(key) : location.pathname + location.search);
}

// What was not pointed at may be out of sight.
function chooseFar(key) {
  choose(key);
  reveal(chosen);
}

// In the address an edge is called an edge.
const hashOf = (key) => key.replace(/^route-/, "edge-");

function fromAddress() {
  let hash = location.hash.slice(1);
  try {
    hash = decodeURIComponent(hash);
  } catch {
    // No text: nothing has such an id.
  }
  chooseFar(hash.replace(/^edge-/, "route-"));
  if (hash && !chosen) nothing(hash);
}

// What is not there is said, and nothing stays lifted.
function nothing(words) {
  choose("");
  told.replaceChildren();
  line("Nothing here is called \u2068" + words.replace(/[\u2066-\u2069]/g, "") + "\u2069.", "");
}

function wayOf(target) {
  const part = target instanceof Element ? target.closest("[data-way], [data-of]") : null;
  return part ? byKey.get(part.dataset.of || part.id) || null : null;
}

function prepare() {
  for (const way of ways) {
    const part = document.getElementById(way.key);
    if (!part) continue;
    part.dataset.way = "";
    // Tab comes to the bundles first, in the order of the legend; the bar goes before them.
    part.setAttribute("tabindex", way.key.startsWith("bundle-") ? "2" : "3");
    part.setAttribute("role", "button");
    part.setAttribute("aria-label", way.name);
  }
  for (const bundle of svg.querySelectorAll(".bundle")) {
    const trunk = made("g", { class: "trunk" });
    trunk.append(...bundle.querySelectorAll("path"));
    bundle.querySelector("title").after(trunk);
  }
}

// ---- search

// What has the words as they stand comes first; then what has words that start so, in any order.
function matches(words) {
  const text = plain(words);
  if (!text) return [];
  const rank = ({ name, terms }) => {
    const all = [name, ...terms].map(plain);
    if (all.includes(text)) return 0;
    if (all.some((term) => term.includes(text))) return 1;
    const joined = " " + all.join(" ");
    return text.split(" ").every((word) => joined.includes(" " + word)) ? 2 : 3;
  };
  const ranked = ways.map((way) => [rank(way), way]).filter(([rank]) => rank < 3);
  ranked.sort((a, b) => a[0] - b[0]);
  return ranked.map(([, way]) => way);
}

// No more of what is found is listed.
const MOST = 12;

function list() {
  found.replaceChildren();
  const all = matches(find.value);
  for (const way of all.slice(0, MOST)) {
    const button = document.createElement("button");
    button.type = "button";
    button.tabIndex = 1;
    fill(button, way.name);
    button.addEventListener("click", () => chooseFar(way.key));
    found.append(button);
  }
  if (all.length > MOST) found.append(` and ${all.length - MOST} more: a longer word finds fewer`);
  if (!all.length && plain(find.value)) found.append("Nothing here is called that.");
}

// ---- zoom and pan

function look() {
  if (svg) svg.setAttribute("viewBox", view.join(" "));
}

function zoom(factor, at) {
  const [x, y, width, height] = view;
  const to = Math.min(Math.max(width * factor, full[2] / 200), full[2] * 2);
  const part = to / width;
  const middle = at || [x + width / 2, y + height / 2];
  view = [middle[0] - (middle[0] - x) * part, middle[1] - (middle[1] - y) * part, to, height * part];
  look();
}

function place(x, y) {
  const point = new DOMPoint(x, y).matrixTransform(svg.getScreenCTM().inverse());
  return [point.x, point.y];
}

function pan(x, y) {
  view[0] += x;
  view[1] += y;
  look();
}

function whole() {
  view = full.slice();
  look();
}

// What is to be seen of the sheet: the screen shows more than the view where it is wider or higher.
function inSight() {
  const { left, top, right, bottom } = svg.getBoundingClientRect();
  return [...place(left, top), ...place(right, bottom)];
}

// The corners of a thing; of what is not drawn itself, those of all that is lifted with it.
function corners(way) {
  const part = document.getElementById(way.key);
  const parts = part ? [part] : way.lifted.map((id) => document.getElementById(id)).filter((part) => part);
  const boxes = parts.map((part) => part.getBBox());
  const least = (side) => Math.min(...boxes.map((box) => box[side]));
  const most = (side, size) => Math.max(...boxes.map((box) => box[side] + box[size]));
  return boxes.length ? [least("x"), least("y"), most("x", "width"), most("y", "height")] : null;
}

// Brings a thing into view: as near as it is looked at, if it fits so.
function reveal(way) {
  const box = svg && way && corners(way);
  if (!box) return;
  // What is around it is to be seen too.
  const around = 0.04;
  let [left, top, right, bottom] = inSight();
  const share = (low, high, size) => (high - low) / (size * (1 - 2 * around));
  const factor = Math.max(share(box[0], box[2], right - left), share(box[1], box[3], bottom - top));
  if (factor > 1) zoom(factor);
  [left, top, right, bottom] = inSight();
  const shift = (low, high, from, to) => {
    const rim = around * (to - from);
    return Math.min(0, low - from - rim) || Math.max(0, high - to + rim);
  };
  pan(shift(box[0], box[2], left, right), shift(box[1], box[3], top, bottom));
}

// Fingers that are on the sheet, and the mouse while its button is held.
const pointers = new Map();
let moved = 0;
// Since no finger was on the sheet there were several: none of them chooses.
let several = false;

function start(event) {
  if (event.button !== 0) return;
  pointers.set(event.pointerId, [event.clientX, event.clientY]);
  several = pointers.size > 1;
  if (!several) moved = 0;
}

function point(event) {
  const way = wayAt(event);
  svg.style.cursor = way ? "pointer" : "";
  if (way !== shown) show(way);
}

function move(event) {
  // Its button was let go where nobody was told of it.
  if (event.buttons === 0) pointers.delete(event.pointerId);
  const before = pointers.get(event.pointerId);
  if (!before) {
    if (!chosen && event.pointerType === "mouse") point(event);
    return;
  }
  const now = [event.clientX, event.clientY];
  const other = [...pointers].find(([id]) => id !== event.pointerId);
  moved += Math.hypot(now[0] - before[0], now[1] - before[1]);
  if (other) {
    const far = (a) => Math.max(1, Math.hypot(a[0] - other[1][0], a[1] - other[1][1]));
    zoom(far(before) / far(now), place(...other[1]));
  } else if (moved > 4) {
    const [a, b] = [place(...before), place(...now)];
    pan(a[0] - b[0], a[1] - b[1]);
  }
  pointers.set(event.pointerId, now);
}

function end(event) {
  const here = pointers.delete(event.pointerId);
  if (here && event.type === "pointerup" && moved <= 4 && !several) {
    const way = wayAt(event);
    choose(way ? way.key : "");
  }
}

// The words may be longer than their place. While they have the focus the arrows move them, and not the sheet.
const PAGES = { PageUp: -0.8, PageDown: 0.8 };
const LINES = { ArrowUp: -20, ArrowDown: 20 };

function key(event) {
  // With one of these a key is the browser's.
  if (event.ctrlKey || event.altKey || event.metaKey) return;
  const step = view[2] / 10;
  const moves = { ArrowLeft: [-step, 0], ArrowRight: [step, 0], ArrowUp: [0, -step], ArrowDown: [0, step] };
  if (event.key === "Escape") choose("");
  if (event.target === find) return;
  const read = PAGES[event.key] * told.clientHeight || event.target === told && LINES[event.key];
  if (read) told.scrollTop += read;
  else if (moves[event.key]) pan(...moves[event.key]);
  else if (event.key === "+") zoom(0.8);
  else if (event.key === "-") zoom(1.25);
  else if (event.key === "0") whole();
  else if (event.key === "/") find.focus();
  else if ((event.key === "Enter" || event.key === " ") && wayOf(event.target)) choose(wayOf(event.target).key);
  else return;
  event.preventDefault();
}

if (svg) {
  prepare();
  gather();
  svg.addEventListener("pointerdown", start);
  addEventListener("pointermove", move);
  addEventListener("pointerup", end);
  addEventListener("pointercancel", end);
  svg.addEventListener("wheel", (event) => {
    event.preventDefault();
    zoom(event.deltaY > 0 ? 1.2 : 1 / 1.2, place(event.clientX, event.clientY));
  }, { passive: false });
  // A finger may leave the focus on a neighbour of what it chose: only the keys lift by it. An svg that
  // listens for the focus itself would take it.
  const sheet = document.getElementById("sheet");
  sheet.addEventListener("focusin", (event) => {
    if (!event.target.matches(":focus-visible")) return;
    show(wayOf(event.target));
    reveal(wayOf(event.target));
  });
  // Where the focus goes on, what it alone has lifted is lifted no longer.
  sheet.addEventListener("focusout", (event) => {
    if (shown === wayOf(event.target)) show(chosen);
  });
  addEventListener("beforeprint", () => svg.setAttribute("viewBox", full.join(" ")));
  addEventListener("afterprint", look);
}
addEventListener("keydown", key);
find.addEventListener("input", list);
document.getElementById("search").addEventListener("submit", (event) => {
  event.preventDefault();
  const first = matches(find.value)[0];
  if (first) chooseFar(first.key);
  else if (plain(find.value)) nothing(find.value.trim());
});
document.getElementById("larger").addEventListener("click", () => zoom(0.7));
document.getElementById("smaller").addEventListener("click", () => zoom(1 / 0.7));
document.getElementById("whole").addEventListener("click", whole);
document.getElementById("none").addEventListener("click", () => choose(""));
addEventListener("hashchange", fromAddress);
fromAddress();

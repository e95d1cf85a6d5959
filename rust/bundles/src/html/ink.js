"use strict";
// ---- what is pointed at

// A thin line is hard to point at, so what is nearest is pointed at too: no further than this, in pixels
// of the screen.
const reach = (event) => (event.pointerType === "touch" ? 16 : 8);
// All ink of the ways, in the order in which it is painted.
const inks = [];

// The straight pieces of a path; a curve is several.
function straight(path) {
  const pieces = [];
  const curve = path.cloneNode();
  let at = null;
  for (const step of path.getAttribute("d").match(/[A-Z][^A-Z]*/g) || []) {
    const to = step.slice(1).trim().split(/[\s,]+/).map(Number).slice(-2);
    const ends = step[0] === "M" ? [] : [to];
    if (step[0] !== "M" && step[0] !== "L") {
      curve.setAttribute("d", "M" + at.join(" ") + step);
      const length = curve.getTotalLength();
      const points = [1, 2, 3, 4, 5, 6, 7].map((part) => curve.getPointAtLength(length * part / 8));
      ends.unshift(...points.map((point) => [point.x, point.y]));
    }
    for (const end of ends) {
      // What has no length has no ink.
      if (end[0] !== at[0] || end[1] !== at[1]) pieces.push([at, end]);
      at = end;
    }
    at = to;
  }
  return pieces;
}

function gather() {
  for (const shape of svg.querySelectorAll("path, circle, rect")) {
    if (!shape.closest("[data-way]")) continue;
    const way = wayOf(shape);
    const style = getComputedStyle(shape);
    // A ring is around what is pointed at.
    if (shape.tagName === "circle" && style.fill === "none") continue;
    const half = style.stroke === "none" ? 0 : parseFloat(style.strokeWidth) / 2;
    const number = (name) => Number(shape.getAttribute(name));
    if (shape.tagName === "path") {
      for (const [from, to] of straight(shape)) inks.push({ way, from, to, half, kind: "line" });
    } else if (shape.tagName === "circle") {
      const at = [number("cx"), number("cy")];
      inks.push({ way, from: at, to: at, half: half + number("r"), kind: "dot" });
    } else {
      // A box is a wide line.
      const [x, y, width, height] = ["x", "y", "width", "height"].map(number);
      const middle = y + height / 2;
      const [from, to] = [[x - half, middle], [x + width + half, middle]];
      inks.push({ way, from, to, half: half + height / 2, kind: "box", frame: 2 * half });
    }
  }
}

// How far a point is from an ink, and the point of the ink's middle that is nearest to it.
function apart({ from, to, half, kind }, at) {
  const [x, y] = [to[0] - from[0], to[1] - from[1]];
  const [right, down] = [at[0] - from[0], at[1] - from[1]];
  if (kind === "dot") return [Math.max(0, Math.hypot(right, down) - half), from];
  const length = Math.hypot(x, y);
  const along = (right * x + down * y) / length;
  const across = Math.abs(right * y - down * x) / length;
  const share = Math.min(Math.max(along, 0), length) / length;
  // Lines end square.
  const past = Math.max(0, -along, along - length);
  return [Math.hypot(past, Math.max(0, across - half)), [from[0] + share * x, from[1] + share * y]];
}

// Whose ink is nearest to a point; of several that are as near, the one on top. On a node's ground only
// what lies on it counts, and no box.
function nearest(at, most, ground) {
  let [least, best] = [most, null];
  const box = ground && inks.find((ink) => ink.way === ground && ink.kind === "box");
  // Not where it ends on the frame.
  const inside = 0.5;
  const lies = ([x, y]) =>
    box.from[0] + inside < x && x < box.to[0] - inside && Math.abs(y - box.from[1]) < box.half - inside;
  for (const ink of inks) {
    if (box && ink.kind === "box") continue;
    const [far, on] = apart(ink, at);
    if (far <= least && (!box || lies(on))) [least, best] = [far, ink.way];
  }
  return best;
}

// Whether a point is on the frame of a node.
function framed(way, [x, y]) {
  const box = inks.find((ink) => ink.way === way && ink.kind === "box");
  const [left, right] = [box.from[0] + box.frame, box.to[0] - box.frame];
  return x < left || x > right || Math.abs(y - box.from[1]) > box.half - box.frame;
}

// The way that is pointed at: that of the ink there, or of the words, or of the nearest ink.
function wayAt(event) {
  const { clientX: x, clientY: y } = event;
  const under = document.elementsFromPoint(x, y);
  if (!under.includes(svg)) return null;
  const parts = under.filter((part) => wayOf(part));
  const isWord = (part) => part.tagName === "text";
  const top = parts.find((part) => !isWord(part));
  const ground = top && top.closest(".node") ? wayOf(top) : null;
  if (top && !ground) return wayOf(top);
  // Words may lie over a frame, and that of one node over the ground of another.
  const frame = parts.find((part) => part.closest(".node") && framed(wayOf(part), place(x, y)));
  if (frame) return wayOf(frame);
  const word = parts.find(isWord);
  if (word) return wayOf(word);
  return nearest(place(x, y), reach(event) / svg.getScreenCTM().a, ground) || ground;
}

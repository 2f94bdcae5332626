// How bars look, and what is written on them.

/** A pattern of stripes in this colour; of each colour it is made once. */
function stripes(colour) {
  if (!patterns.has(colour)) patterns.set(colour, newStripes(colour));
  return patterns.get(colour);
}

function newStripes(colour) {
  const tile = document.createElement("canvas"), ratio = window.devicePixelRatio;
  tile.width = tile.height = 8 * ratio;
  const brush = tile.getContext("2d");
  brush.scale(ratio, ratio);
  brush.strokeStyle = colour;
  brush.lineWidth = 1.5;
  brush.stroke(new Path2D("M-2 2 L2 -2 M0 8 L8 0 M6 10 L10 6"));
  const pattern = pen.createPattern(tile, "repeat");
  pattern.setTransform(new DOMMatrix().scale(1 / ratio));
  return pattern;
}

/** How a bar looks. One that never returned is pale and its edge is broken, whatever the order does with it. */
function lookOf(call, isOpen) {
  const looks = {
    run: { fill: colours.run, ink: colours["on-run"], edge: colours.run, weight: "bold" },
    next: { fill: colours.next, ink: colours["on-next"], edge: colours.ink, width: 2.5, dash: [6, 3] },
    dropped: { fill: "hatched", ink: colours.ink, edge: colours.faint },
    rest: { fill: colours.rest, ink: colours.ink, edge: colours.faint },
  };
  const look = looks[call.state];
  return isOpen ? { ...look, fill: call.state === "dropped" ? "hatched" : "pale", ink: colours.ink, width: 1.5, dash: [4, 3] } : look;
}

function fillBox(brush, look, left, top, width, height) {
  const fills = { hatched: [[stripes(colours.faint), 1]], pale: [[look.edge, 0.25]] };
  for (const [fill, alpha] of [[colours.paper, 1], ...(fills[look.fill] ?? [[look.fill, 1]])]) {
    brush.fillStyle = fill;
    brush.globalAlpha = alpha;
    brush.fillRect(left, top, width, height);
  }
  brush.globalAlpha = 1;
}

/** The edge of a box; an open one has none on the right. */
function edgeBox(brush, look, isOpen, left, top, width, height) {
  brush.strokeStyle = look.edge;
  brush.lineWidth = look.width ?? 1;
  brush.setLineDash(look.dash ?? []);
  brush.beginPath();
  brush.moveTo(left + width, top);
  brush.lineTo(left, top);
  brush.lineTo(left, top + height);
  brush.lineTo(left + width, top + height);
  if (!isOpen) brush.closePath();
  brush.stroke();
  brush.setLineDash([]);
}

/** As much of a text as is not wider than this, with an ellipsis where it is cut. */
function cut(text, width) {
  if (pen.measureText(text).width <= width) return text;
  const letters = Math.floor(width / pen.measureText("m").width) - 1;
  return letters > 0 ? `${text.slice(0, letters)}…` : "";
}

/** The lines on a bar of this width: in the core also those of the input, or the reply on a line of its own where it must be. */
function labelOf(call, width) {
  if (!shown.view.isCore) {
    const here = call.state === "next" ? `, ${call.here.replace("it would be ", "")}` : "";
    return [`${call.place ? `${call.place}. ` : ""}${said(call)}${here}`];
  }
  const [did, reply] = call.core.isPending ? [operation(call)] : said(call).split(/(?== )/);
  const first = reply ? did + reply : did;
  if (shown.sizes.bar < TWO_LINES) return [first];
  if (reply && pen.measureText(first).width > width) return [did, reply];
  return [first, call.core.isPending ? `line ${call.line}` : linesOf(call)];
}

/** The text of a bar, in that part of it which is in sight. */
function drawLabel(bar) {
  const box = boxOf(bar), left = Math.max(box.left, shown.names), right = Math.min(box.right, shown.width);
  if (right - left < NARROWEST_LABEL) return;
  const look = lookOf(bar.call, bar.isOpen);
  const { font } = shown.sizes, width = right - left - 2 * INSET;
  useFont(font, look.weight);
  const label = labelOf(bar.call, width);
  pen.fillStyle = look.ink;
  label.forEach((line, index) => {
    if (index && !line.startsWith("=")) useFont(font - 2.5);
    const offset = label.length === 1 ? 0 : index ? 0.23 : -0.18;
    pen.fillText(cut(line, width), left + INSET, box.middle + offset * (box.bottom - box.top) + 1);
  });
}

function drawBar(bar) {
  const box = boxOf(bar), look = lookOf(bar.call, bar.isOpen);
  if (isThin(box)) return drawThin({ ...box, colour: thinColour(look) });
  const left = Math.max(box.left, shown.names - 4), right = Math.min(box.right, shown.width + 4);
  fillBox(pen, look, left, box.top, right - left, box.bottom - box.top);
  edgeBox(pen, look, bar.isOpen, left, box.top, right - left, box.bottom - box.top);
  if (!shown.view.isCore) drawLabel(bar);
}

/** Whether a bar has no room for more than its colour. */
const isThin = ({ left, right }) => right - left < THIN;
const thinColour = (look) => (look.fill === "hatched" || look.fill === "pale" ? look.edge : look.fill);

function drawThin({ left, top, right, bottom, colour }) {
  pen.fillStyle = colour;
  pen.fillRect(left, top, right - left, bottom - top);
}

/** Draws these bars, which are side by side. Thin ones of one colour that touch are drawn as one. */
function drawBars(bars) {
  let thin = null;
  for (const bar of bars) {
    const box = boxOf(bar), colour = thinColour(lookOf(bar.call, bar.isOpen));
    if (thin && isThin(box) && thin.colour === colour && box.left <= thin.right + 0.5) {
      thin.right = box.right;
      continue;
    }
    if (thin) drawThin(thin);
    thin = isThin(box) ? { ...box, colour } : null;
    if (!thin) drawBar(bar);
  }
  if (thin) drawThin(thin);
}

/** The bars of a lane that are in sight; of those in one pixel the first. */
function* barsInSight({ bars }) {
  const end = slotAt(shown.width);
  for (let at = firstFrom(bars, slotAt(shown.names) - 1); at < bars.length && bars[at].start <= end; ) {
    yield bars[at];
    at = Math.max(at + 1, firstFrom(bars, slotAt(xOf(bars[at].start) + LEAST_WIDTH)));
  }
}

/** The bars that matter most, in front of all others, and the edges of those that were chosen or are of the core. */
function drawMarked() {
  const { view, chosen, hovered } = shown, isInSight = (box) => box.right > shown.names && box.left < shown.width;
  for (const bar of view.marked.filter((it) => isInSight(boxOf(it)))) drawBar(bar);
  for (const call of view.isCore ? [] : [...core, ...gets]) drawRing(view.bars.get(call), colours.order, 2);
  drawRing(view.bars.get(hovered), colours.chosen, 2);
  drawRing(view.bars.get(chosen), colours.chosen, 3.5);
}

/** All that is written of the call under the cursor, across what is beside its bar, where the bar has no room for it. */
function drawWhole(bar) {
  if (!bar) return;
  const { left, right, middle } = boxOf(bar), { font } = shown.sizes, begin = Math.max(left, shown.names);
  useFont(font, "bold");
  const words = labelOf(bar.call, Infinity)[0], width = pen.measureText(words).width + 2 * INSET;
  if (width <= Math.min(right, shown.width) - begin) return;
  const from = Math.max(shown.names, Math.min(begin, shown.width - width));
  pen.fillStyle = colours.paper;
  pen.fillRect(from, middle - font, width, 2 * font);
  pen.strokeStyle = colours.chosen;
  pen.lineWidth = 1;
  pen.strokeRect(from, middle - font, width, 2 * font);
  pen.fillStyle = colours.ink;
  pen.fillText(words, from + INSET, middle + 1);
}

function drawRing(bar, colour, width) {
  if (!bar) return;
  const { left, top, right, bottom } = boxOf(bar), begin = Math.max(left, shown.names - 8), end = Math.min(right, shown.width + 8);
  if (begin > end) return;
  pen.strokeStyle = colour;
  pen.lineWidth = width;
  pen.strokeRect(begin - 1.5, top - 1.5, end - begin + 3, bottom - top + 3);
}

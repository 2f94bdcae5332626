// Draws what is in sight of a view: the lanes, the arrows and the lines.

function drawLane(lane, index) {
  const top = topOf(index), height = heightOf(index);
  pen.strokeStyle = colours.line;
  pen.lineWidth = 1;
  pen.strokeRect(-1, Math.round(top + height) - 0.5, shown.width + 2, 0);
  if (isFolded(index)) return;
  if (lane.openFrom !== null) drawOpenEnd(xOf(lane.openFrom), top + height - 4);
  drawBars(barsInSight(lane));
  drawTakeovers(lane, top);
}

/** A call that never returned goes on below those of the process that took over. */
function drawOpenEnd(left, y) {
  pen.strokeStyle = colours.faint;
  pen.lineWidth = 1.5;
  pen.setLineDash([4, 3]);
  pen.beginPath();
  pen.moveTo(Math.max(left, shown.names), y);
  pen.lineTo(shown.width, y);
  pen.stroke();
  pen.setLineDash([]);
}

/** Where a process goes on in the lane of another, its number. */
function drawTakeovers(lane, top) {
  useFont(10);
  pen.fillStyle = colours.faint;
  let free = -Infinity;
  for (const life of lane.lives.slice(1)) {
    const x = xOf(life.first) + 4;
    if (x < free || x > shown.width) continue;
    const text = `process ${life.process}`;
    free = x + pen.measureText(text).width + 6;
    if (free > shown.names) pen.fillText(text, x, top + 5);
  }
}

/** The processes of the lanes at the left edge. */
function drawNames() {
  const slot = slotAt(shown.names);
  pen.fillStyle = colours.paper;
  pen.fillRect(0, 0, shown.names - 6, shown.height);
  pen.fillStyle = colours.ink;
  useFont(12);
  shown.view.lanes.forEach((lane, index) => {
    const top = topOf(index), height = heightOf(index);
    if (isFolded(index) || top > shown.height || top + height < 0) return;
    const life = lane.lives.findLast((it) => it.first <= slot) ?? lane.lives[0];
    pen.fillText(nameOf(life.process), 8, top + height / 2);
  });
}

const nameOf = (process) => (isNarrow() ? `p${process}` : `process ${process}`);

/** The numbers of lines above the events. */
function drawAxis() {
  const { lines } = shown.view;
  pen.fillStyle = colours.paper;
  pen.fillRect(0, 0, shown.width, AXIS - 2);
  pen.fillStyle = colours.faint;
  useFont(11);
  pen.fillText("line", 8, AXIS / 2);
  const step = Math.max(1, Math.ceil((pen.measureText(String(lines.at(-1))).width + 14) / shown.scale));
  const begin = Math.ceil(Math.max(0, slotAt(shown.names)) / step) * step;
  for (let slot = begin; slot < lines.length && xOf(slot) < shown.width; slot += step) {
    pen.fillText(lines[slot], xOf(slot) + gap(), AXIS / 2);
  }
}

/** The tip of an arrow that comes from this direction. */
function drawTip(x, y, dx, dy) {
  const length = Math.hypot(dx, dy) || 1, [ux, uy] = [dx / length, dy / length];
  pen.beginPath();
  pen.moveTo(x, y);
  pen.lineTo(x - 9 * ux - 4.5 * uy, y - 9 * uy + 4.5 * ux);
  pen.lineTo(x - 9 * ux + 4.5 * uy, y - 9 * uy - 4.5 * ux);
  pen.fill();
}

/** Where an arrow from a box to another begins and ends, left and right. */
function endsOf(from, to) {
  const inset = 14;
  if (from.right < to.left) return [Math.max(from.right - inset, (from.left + from.right) / 2), Math.min(to.left + inset, (to.left + to.right) / 2)];
  if (from.left > to.right) return [Math.min(from.left + inset, (from.left + from.right) / 2), Math.max(to.right - inset, (to.left + to.right) / 2)];
  const left = Math.max(from.left, to.left), right = Math.min(from.right, to.right), x = right - Math.min(inset, (right - left) / 2);
  return [x, x];
}

/** What an arrow carries, beside its begin, with paper around it. */
function drawWord(text, x, y) {
  useFont(shown.sizes.font - 2, "bold");
  const left = x - pen.measureText(text).width - 6;
  pen.strokeStyle = colours.paper;
  pen.lineWidth = 4;
  pen.strokeText(text, left, y);
  pen.fillStyle = colours.put;
  pen.fillText(text, left, y);
}

/** An arrow from the call that put a value to the one that took it. */
function drawPair({ putter, taker, isOneOfMany }) {
  const from = boxOf(shown.view.bars.get(putter)), to = boxOf(shown.view.bars.get(taker));
  if (Math.max(from.right, to.right) < shown.names || Math.min(from.left, to.left) > shown.width) return;
  const [x, endX] = endsOf(from, to), isBelow = to.top > from.top, isBeside = to.top === from.top;
  const y = isBelow ? from.bottom : from.top, endY = isBelow || isBeside ? to.top : to.bottom;
  const bend = isBeside ? -30 : (endY - y) / 2;
  pen.strokeStyle = pen.fillStyle = colours.put;
  pen.lineWidth = 2;
  pen.setLineDash(isOneOfMany ? [5, 4] : []);
  pen.beginPath();
  pen.moveTo(x, y);
  pen.bezierCurveTo(x, y + bend, endX, endY - (isBeside ? 30 : bend), endX, endY);
  pen.stroke();
  pen.setLineDash([]);
  drawTip(endX, endY, 0, isBeside ? 1 : bend);
  if (shown.view.isCore) drawWord(takenBy(taker).split(": ").map(valueOf).join(": "), x, y + (isBelow ? 10 : -10));
}

/** A line from the return of a call to the call of one that came later. */
function drawNeeded([before, after], index) {
  const from = boxOf(shown.view.bars.get(before)), to = boxOf(shown.view.bars.get(after));
  if (to.left < shown.names || from.right > shown.width) return;
  const x = Math.min(from.right + 5 + (index % 3) * 5, (from.right + to.left) / 2);
  pen.strokeStyle = pen.fillStyle = colours.order;
  pen.lineWidth = 2.5;
  pen.beginPath();
  pen.moveTo(from.right, from.middle);
  pen.lineTo(x, from.middle);
  pen.lineTo(x, to.middle);
  pen.lineTo(to.left - 6, to.middle);
  pen.stroke();
  drawTip(to.left, to.middle, 1, 0);
}

function draw() {
  look();
  pen.fillStyle = colours.paper;
  pen.fillRect(0, 0, shown.width, shown.height);
  shown.needed.forEach(drawNeeded);
  shown.view.lanes.forEach((lane, index) => {
    if (topOf(index + 1) > 0 && topOf(index) < shown.height) drawLane(lane, index);
  });
  drawMarked();
  shown.pairs.forEach(drawPair);
  if (shown.view.isCore) shown.view.bars.forEach(drawLabel); // in front of the arrows
  drawWhole(shown.view.bars.get(shown.hovered));
  drawNames();
  drawAxis();
}

let isDue = false;

/** Draws soon, once for all that happens until then. */
function drawSoon() {
  if (isDue) return;
  isDue = true;
  requestAnimationFrame(() => { isDue = false; draw(); });
}

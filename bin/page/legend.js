// What the colours, the arrows and the lines mean.

/** What the colours mean that the view has: of each the state, whether the bars are open, and the words. */
function coloursInView() {
  const bars = [...shown.view.bars.values()], { isCore } = shown.view;
  const closed = [
    ["run", `in the ${runName}${isCore ? "" : ", at this place"}`],
    ["next", "could come next: no other call that is left precedes it"],
    ["rest", run.length ? "any other call" : ""],
  ].filter(([state, text]) => text && bars.some((bar) => !bar.isOpen && bar.call.state === state));
  const items = closed.map(([state, text]) => [state, false, text]);
  if (bars.some(({ call }) => call.state === "dropped")) items.push(["dropped", true, "never returned, and the order leaves it out"]);
  const open = bars.find((bar) => bar.isOpen && bar.call.state !== "dropped");
  if (open) items.push([open.call.state, true, isCore ? "never returned, or need not have for this" : "never returned"]);
  return items;
}

/** What the colours, the arrows and the lines mean that the view has. */
function writeLegend() {
  const { isCore } = shown.view;
  const strokes = [
    [isCore && shown.pairs.length, drawStroke, "put", "put what the other took"],
    [shown.needed.length, drawStroke, "order", `returned before the other was called${least ? "; without this there would be an order" : ""}`],
    [!isCore && core.length, drawFrame, "order", "one of the calls that alone have no order"],
    [gets.length, drawFrame, "order", gets.length > 1 ? "the two gets of which no order gives the second its reply" : "no order gives it its reply"],
  ].filter(([isThere]) => isThere);
  legend.replaceChildren(
    ...coloursInView().map(([state, isOpen, text]) => legendItem((brush) => drawSwatch(brush, lookOf({ state }, isOpen), isOpen), text)),
    ...strokes.map(([, paint, colour, text]) => legendItem((brush) => paint(brush, colours[colour]), text)),
  );
}

function legendItem(paint, text) {
  const item = document.createElement("li"), swatch = document.createElement("canvas"), ratio = window.devicePixelRatio;
  Object.assign(swatch, { width: 34 * ratio, height: 18 * ratio });
  Object.assign(swatch.style, { width: "34px", height: "18px" });
  const brush = swatch.getContext("2d");
  brush.scale(ratio, ratio);
  paint(brush);
  item.append(swatch, text);
  return item;
}

function drawSwatch(brush, look, isOpen) {
  fillBox(brush, look, 2, 2, 30, 14);
  edgeBox(brush, look, isOpen, 2, 2, 30, 14);
}

function drawStroke(brush, colour) {
  brush.strokeStyle = brush.fillStyle = colour;
  brush.lineWidth = 2.5;
  brush.stroke(new Path2D("M2 9 H26"));
  brush.fill(new Path2D("M32 9 L24 4.5 V13.5 Z"));
}

function drawFrame(brush, colour) {
  brush.strokeStyle = colour;
  brush.lineWidth = 2;
  brush.strokeRect(3, 3, 28, 12);
}

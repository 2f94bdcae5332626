// What the page does with the mouse, the keys and its buttons.

const told = document.getElementById("told"), legend = document.getElementById("legend"), found = document.getElementById("found");
const objectChoice = document.getElementById("object"), valueChoice = document.getElementById("value");
const least = core.length ? leastOrder() : null; // the part of the core's real-time order that matters
const links = [...document.querySelectorAll("a[data-call]")];

const MOST_WIDE = 16_000_000; // pixels; browsers draw no wider box
const MOST_SCALE = 240, SCALE = 84, LEGIBLE = 44, LEAST_SCALE = 12; // pixels of an event: at most, at first, so that labels can be read, in the core
const LABEL = 160; // pixels of a bar that should be in view at least
const ZOOM = 1.25, STEP = 120; // of a key
const TURN = 400, LINE = 30; // pixels by which a wheel is turned to zoom by e, and those of a line
const LEAST_MOVE = 4; // pixels from which a pressed mouse moves the chart
const BORDERS = 2; // of the chart
const MOST_TOLD = 20; // calls that are named for who does not see the canvas

/** The scale at which all events are in sight. */
const fitting = () => (chart.clientWidth - shown.names - 2) / shown.view.lines.length;

/** The scale with which a view opens: all in sight, where that can be read. */
function opening() {
  const { isCore } = shown.view, all = fitting();
  if (isCore) return all < LEAST_SCALE ? SCALE : Math.min(MOST_SCALE, all);
  return Math.min(SCALE, Math.max(all, LEGIBLE));
}

function zoomRange() {
  const most = Math.max(fitting(), Math.min(MOST_SCALE, MOST_WIDE / shown.view.lines.length));
  return { least: Math.min(LEGIBLE, fitting()), most };
}

/** Sets how wide an event is; what is at this place of the canvas stays there. */
function setScale(scale, x = (shown.names + shown.width) / 2) {
  look();
  const slot = slotAt(x), { least, most } = zoomRange();
  shown.scale = Math.min(most, Math.max(least, scale));
  resizeSpace();
  chart.scrollLeft = shown.names + slot * shown.scale - x;
  look();
  drawSoon();
}

/** Makes room for all lanes and events, as far as the window has it. */
function resizeSpace() {
  const width = Math.floor(shown.names + shown.view.lines.length * shown.scale), height = AXIS + shown.view.lanes.length * shown.sizes.lane;
  Object.assign(space.style, { width: `${width}px`, height: `${height}px` });
  chart.style.height = `${Math.min(height + BORDERS, highest())}px`;
  const scrollBar = chart.offsetHeight - chart.clientHeight - BORDERS;
  chart.style.height = `${Math.min(height + BORDERS + scrollBar, highest())}px`;
}

/** How wide the names of the lanes are. */
function namesWidth() {
  const longest = shown.view.lanes.reduce((most, { lives }) => lives.reduce((it, { process }) => Math.max(it, process), most), 0);
  useFont(12);
  return pen.measureText(nameOf(String(longest).replace(/./g, "0"))).width + 20;
}

/** Shows these calls. */
function show(chosen, isCore) {
  const view = viewOf(chosen, isCore);
  Object.assign(shown, { view, sizes: sizesOf(view), hovered: null, needed: isCore ? least ?? nearestPrecedences() : [] });
  if (!view.bars.has(shown.chosen)) choose(null);
  shown.pairs = pairsInSight();
  shown.names = namesWidth();
  chart.scrollLeft = chart.scrollTop = 0;
  setScale(opening(), shown.names);
  found.textContent = chosen.length ? "" : "no call";
  const isPart = isCore || (gets.length > 0 && chosen.length < calls.length);
  for (const button of document.querySelectorAll("#views button")) button.setAttribute("aria-pressed", String((button.id === "core") === isPart));
  canvas.setAttribute("aria-label", `${chosen.length} calls in ${view.lanes.length} lanes: ${chosen.slice(0, MOST_TOLD).map((call) => said(call)).join("; ")}`);
  writeLegend();
}

/** Shows the core, and of one that is too large the end. */
function showCore() {
  objectChoice.value = valueChoice.value = "";
  show(core, true);
  chart.scrollLeft = space.offsetWidth;
}

/** Shows the gets of a counter whose sums leave no room, and what lies between them, all in sight. */
function showSums() {
  objectChoice.value = valueChoice.value = "";
  show(callsOfSums(), false);
  setScale(fitting(), shown.names);
}

/** Shows the calls of the filter, and of these first one that matters. */
function showAll() {
  const object = objectChoice.value, words = valueChoice.value.trim();
  show(calls.filter((call) => matches(call, object, words)), false);
  const first = core[0] ?? gets[0] ?? calls.find(({ state }) => state === "next");
  if (first && shown.view.bars.has(first)) bringIntoView(first, 0.4);
}

/** The arrows: all of the core, else those of the calls that were chosen or are under the cursor. */
function pairsInSight() {
  const { view, chosen, hovered } = shown;
  if (view.isCore) return pairsOfCore();
  const pairs = [...new Set([chosen, hovered])].flatMap((call) => (call ? pairsAround(call) : []));
  return pairs.filter(({ putter, taker }) => view.bars.has(putter) && view.bars.has(taker));
}

/** Moves to the bar of a call, so that it begins in this part of the width. */
function bringIntoView(call, part = 0.3) {
  if (shown.scale < Math.min(LEGIBLE, opening())) setScale(LEGIBLE);
  look();
  const margin = (shown.sizes.lane - shown.sizes.bar) / 2;
  let box = boxOf(shown.view.bars.get(call));
  if (box.left < shown.names || Math.min(box.right, box.left + LABEL) > shown.width) {
    chart.scrollLeft += box.left - shown.names - (shown.width - shown.names) * part;
    look();
    box = boxOf(shown.view.bars.get(call));
  }
  if (box.top < AXIS) chart.scrollTop += box.top - AXIS - margin;
  if (box.bottom > shown.height) chart.scrollTop += box.bottom - shown.height + margin;
  draw();
}

/** Chooses a call and brings its bar into view, or chooses none. All calls are shown where the view is without it. */
function choose(call) {
  shown.chosen = call;
  for (const link of links) link.classList.toggle("chosen", call !== null && +link.dataset.call === call.number);
  if (call && !shown.view.bars.has(call)) {
    objectChoice.value = valueChoice.value = "";
    show(calls, false);
  }
  shown.pairs = pairsInSight();
  if (call) {
    chart.scrollIntoView({ block: "nearest" });
    bringIntoView(call);
  }
  if (call) history.replaceState(null, "", `#line-${call.line}`);
  tellChosen();
  drawSoon();
}

/** Chooses the call on the line that the address names, as page.html#line-12. */
function chooseNamed() {
  const found = /^#line-(\d+)$/.exec(location.hash), call = found && callOn(+found[1]);
  if (call) choose(call);
}

/** Shows what is told of the chosen call, below the chart, where its bar is in sight. */
function tellChosen() {
  const bar = shown.view.bars.get(shown.chosen), box = bar && boxOf(bar);
  const isInSight = bar && box.right > shown.names && box.left < shown.width && box.bottom > AXIS && box.top < shown.height;
  if (isInSight) tell(shown.chosen, Math.max(box.left, shown.names), chart.offsetHeight);
  else tell(null);
}

/** Shows what is told of a call, by this place of the canvas. */
function tell(call, x, y) {
  told.hidden = !call;
  if (!call) return;
  told.replaceChildren(...toldOf(call).map((line) => Object.assign(document.createElement("div"), { textContent: line })));
  told.style.left = `${Math.max(0, Math.min(x, chart.clientWidth - told.offsetWidth - 4))}px`;
  told.style.top = `${y + 4}px`;
}

/** The call whose bar is at this place, or beside it by a few pixels where bars are narrow. */
function callAt(x, y) {
  if (x < shown.names || y < AXIS) return null;
  const lane = shown.view.lanes[shown.tops.findLastIndex((top) => top <= y + shown.top)];
  if (!lane) return null;
  const at = firstFrom(lane.bars, Math.floor(slotAt(x - 2)));
  const bar = lane.bars[at], box = bar && boxOf(bar);
  return bar && box.left - 2 <= x && x <= box.right + 2 && box.top <= y && y <= box.bottom ? bar.call : null;
}

function hover(event) {
  const { left, top } = canvas.getBoundingClientRect(), [x, y] = [event.clientX - left, event.clientY - top];
  const call = callAt(x, y);
  if (call !== shown.hovered) {
    shown.hovered = call;
    shown.pairs = pairsInSight();
    drawSoon();
  }
  if (call) tell(call, x + 14, y + 14);
  else tellChosen();
}

function leave() {
  shown.hovered = null;
  shown.pairs = pairsInSight();
  tellChosen();
  drawSoon();
}

// Moving by the mouse: from where it was pressed, until it is let go. The click after that chooses nothing.
let held = null, wasMoved = false;

chart.addEventListener("pointerdown", (event) => {
  wasMoved = false;
  if (event.pointerType !== "mouse" || event.button !== 0 || event.target !== canvas) return;
  held = { x: event.clientX, y: event.clientY, left: chart.scrollLeft, top: chart.scrollTop };
});

window.addEventListener("pointermove", (event) => {
  if (!held) return;
  const [dx, dy] = [event.clientX - held.x, event.clientY - held.y];
  wasMoved ||= Math.hypot(dx, dy) > LEAST_MOVE;
  chart.classList.toggle("moving", wasMoved);
  if (wasMoved) Object.assign(chart, { scrollLeft: held.left - dx, scrollTop: held.top - dy });
});

window.addEventListener("pointerup", () => {
  chart.classList.remove("moving");
  held = null;
});

canvas.addEventListener("click", (event) => {
  const { left, top } = canvas.getBoundingClientRect();
  if (!wasMoved) choose(callAt(event.clientX - left, event.clientY - top));
});
canvas.addEventListener("pointermove", (event) => { if (!held) hover(event); });
canvas.addEventListener("pointerleave", leave);
chart.addEventListener("scroll", () => { look(); leave(); });
chart.addEventListener("wheel", (event) => {
  if (event.shiftKey || Math.abs(event.deltaX) > Math.abs(event.deltaY)) return;
  event.preventDefault();
  const turned = event.deltaY * (event.deltaMode === WheelEvent.DOM_DELTA_LINE ? LINE : 1);
  setScale(shown.scale * Math.exp(-turned / TURN), event.clientX - canvas.getBoundingClientRect().left);
}, { passive: false });

/** The call of the run so many places after the chosen one. */
function step(places) {
  const from = shown.chosen?.place || (places > 0 ? 0 : run.length + 1);
  const call = run[from + places - 1];
  if (call) choose(call);
}

const KEYS = {
  "+": () => setScale(shown.scale * ZOOM),
  "=": () => setScale(shown.scale * ZOOM),
  "-": () => setScale(shown.scale / ZOOM),
  f: () => setScale(0),
  n: () => step(1),
  p: () => step(-1),
  Escape: () => choose(null),
  ArrowLeft: () => { chart.scrollLeft -= STEP; },
  ArrowRight: () => { chart.scrollLeft += STEP; },
  Home: () => { chart.scrollLeft = 0; },
  End: () => { chart.scrollLeft = space.offsetWidth; },
};

document.addEventListener("keydown", (event) => {
  const key = KEYS[event.key], isWritten = /^(INPUT|SELECT)$/.test(event.target.tagName);
  if (!key || isWritten || event.ctrlKey || event.metaKey || event.altKey) return;
  event.preventDefault();
  key();
});

for (const link of links) link.addEventListener("click", (event) => { event.preventDefault(); choose(calls[link.dataset.call]); });
document.getElementById("in").addEventListener("click", KEYS["+"]);
document.getElementById("out").addEventListener("click", KEYS["-"]);
document.getElementById("fit").addEventListener("click", KEYS.f);
objectChoice.addEventListener("change", showAll);
valueChoice.addEventListener("input", showAll);

/** The buttons of the two views, where there is a core, or sums. */
function addViews() {
  const alone = core.length === 1 ? "this call alone" : `these ${core.length} calls alone`, between = gets.length > 1 ? "these gets and what lies between" : "this get and what lies before";
  const views = { core: core.length ? [alone, showCore] : [between, showSums], all: [`all ${calls.length.toLocaleString("en")} calls`, showAll] };
  for (const [id, [textContent, onclick]] of core.length || gets.length ? Object.entries(views) : []) {
    document.getElementById("views").append(Object.assign(document.createElement("button"), { type: "button", id, textContent, onclick }));
  }
}

/** The chart is wider or narrower than before. */
function resize() {
  shown.sizes = sizesOf(shown.view);
  shown.names = namesWidth();
  setScale(shown.view.isCore ? opening() : shown.scale, shown.names);
}

function begin() {
  readColours();
  addViews();
  for (const { name } of data.objects) objectChoice.append(new Option(name, name));
  if (core.length) showCore();
  else if (gets.length) showSums();
  else showAll();
  addEventListener("hashchange", chooseNamed);
  chooseNamed();
  matchMedia("(prefers-color-scheme: dark)").addEventListener("change", () => { readColours(); writeLegend(); drawSoon(); });
  new ResizeObserver(resize).observe(document.getElementById("frame"));
}

begin();

// What is in sight of a view, and where on the canvas it is.

const chart = document.getElementById("chart"), space = document.getElementById("space"), canvas = document.getElementById("canvas");
const pen = canvas.getContext("2d");
const SIZES = { // of lanes, bars and letters; `gap` is what is left at most between two bars side by side
  all: { lane: 44, bar: 28, gap: 3, font: 12 },
  core: { lane: 92, bar: 52, gap: 18, font: 15 },
  narrow: { lane: 84, bar: 48, gap: 12, font: 11 },
  crowded: { lane: 46, bar: 28, gap: 8, font: 12 },
};
const HIGHEST = 0.62, LEAST_HEIGHT = 240; // of the chart: a part of the window, and pixels
const TWO_LINES = 40; // pixels of a bar that has room for two lines
const FOLDED = 6; // the height of a lane that has no bar in sight, where not all have room
const AXIS = 22, INSET = 6, NARROWEST_LABEL = 26, LEAST_WIDTH = 1, THIN = 4;
const FONT = "ui-monospace, 'DejaVu Sans Mono', monospace";
const COLOURS = ["ink", "paper", "faint", "line", "run", "on-run", "next", "on-next", "rest", "put", "order", "chosen"];

/** What is drawn: a view, how many pixels an event and the names of the lanes are wide, the lines and arrows, the call that was chosen,
 * and the one under the cursor. */
const shown = {
  view: null, sizes: SIZES.all, scale: 1, names: 0, needed: [], pairs: [], chosen: null, hovered: null,
  width: 0, height: 0, left: 0, top: 0, // of the canvas, and where it is in the chart
  tops: [0], // of the lanes in the chart, and the end of the last one
};
const patterns = new Map();
let colours = {};

function readColours() {
  const style = getComputedStyle(document.documentElement);
  colours = Object.fromEntries(COLOURS.map((name) => [name, style.getPropertyValue(`--${name}`).trim()]));
}

const isNarrow = () => chart.clientWidth < 500;
const highest = () => Math.max(LEAST_HEIGHT, innerHeight * HIGHEST);

/** How large the lanes of a view are drawn: those of the core as large as the window has room for them. */
function sizesOf({ isCore, lanes }) {
  if (!isCore) return SIZES.all;
  const sizes = isNarrow() ? SIZES.narrow : SIZES.core;
  return AXIS + lanes.length * sizes.lane > highest() ? SIZES.crowded : sizes;
}

const gap = () => Math.min(shown.sizes.gap, shown.scale / 6);
const xOf = (slot) => shown.names + slot * shown.scale - shown.left;
const slotAt = (x) => (x - shown.names + shown.left) / shown.scale;
const topOf = (lane) => shown.tops[lane] - shown.top;
const heightOf = (lane) => shown.tops[lane + 1] - shown.tops[lane];
const isFolded = (lane) => heightOf(lane) === FOLDED;

function useFont(size, weight = "") {
  pen.font = `${weight} ${size}px ${FONT}`;
}

/** Where the bar of a call is on the canvas, also where that is out of sight. */
function boxOf(bar) {
  const lane = heightOf(bar.lane), height = Math.min(shown.sizes.bar, lane);
  const left = xOf(bar.start) + gap(), right = xOf(bar.end + 1) - (bar.isOpen ? 0 : gap());
  const top = topOf(bar.lane) + (lane - height) / 2;
  return { left, right: Math.max(right, left + LEAST_WIDTH), top, bottom: top + height, middle: top + height / 2 };
}

/** Whether a lane has a bar in sight or near it. */
function hasBars({ bars }) {
  const near = (shown.width - shown.names) / 2, bar = bars[firstFrom(bars, slotAt(shown.names - near))];
  return bar !== undefined && bar.start <= slotAt(shown.width + near);
}

/** Where the lanes are. Where not all have room, those that are empty there are folded. */
function placeLanes() {
  const { view, sizes } = shown, areFolded = !view.isCore && AXIS + view.lanes.length * sizes.lane > shown.height;
  shown.tops = [AXIS];
  for (const lane of view.lanes) shown.tops.push(shown.tops.at(-1) + (areFolded && !hasBars(lane) ? FOLDED : sizes.lane));
  space.style.height = `${shown.tops.at(-1)}px`;
}

/** Notes what is in sight, and makes the canvas as large as that. */
function look() {
  const ratio = window.devicePixelRatio, { clientWidth: width, clientHeight: height, scrollLeft: left, scrollTop: top } = chart;
  Object.assign(shown, { width, height, left, top });
  if (canvas.width !== Math.round(width * ratio) || canvas.height !== Math.round(height * ratio)) {
    Object.assign(canvas, { width: Math.round(width * ratio), height: Math.round(height * ratio) });
    Object.assign(canvas.style, { width: `${width}px`, height: `${height}px` });
  }
  pen.setTransform(ratio, 0, 0, ratio, 0, 0);
  pen.textBaseline = "middle";
  placeLanes();
}

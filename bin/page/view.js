// A view: some of the calls, their events side by side, and the lanes in which their bars are.

const MOST_LANES = 8; // processes that keep a lane each, if none of them ended

/** Whether nothing is drawn at the end of the call's bar. */
function isOpen(call, isCore) {
  return isPending(call) || (isCore && call.core.isPending);
}

/** The lines of the events of these calls, in their order; the index of a line is the slot of its event. */
function eventLines(chosen, isCore) {
  const lines = chosen.flatMap((call) => (isOpen(call, isCore) ? [call.line] : [call.line, call.returned]));
  return lines.sort((a, b) => a - b);
}

/** The bars of these calls, each from a slot to a slot. An open one goes on to the last slot, or as far as its lane is free. */
function barsOf(chosen, lines, isCore) {
  const slots = new Map(lines.map((line, slot) => [line, slot]));
  return chosen.map((call) => {
    const open = isOpen(call, isCore);
    return { call, isOpen: open, start: slots.get(call.line), end: open ? lines.length - 1 : slots.get(call.returned) };
  });
}

/** The processes of these bars, by their first events: each with its bars, its last event, and whether it ended, as one does whose
 * call never returned. */
function livesOf(bars) {
  const lives = new Map();
  for (const bar of bars) {
    const { process } = bar.call;
    if (!lives.has(process)) lives.set(process, { process, bars: [], first: bar.start });
    const life = lives.get(process);
    life.bars.push(bar);
    life.last = bar.isOpen ? bar.start : bar.end;
    life.hasEnded = isPending(bar.call);
  }
  return [...lives.values()];
}

/** The lane that became free last before this slot. */
function freeLane(lanes, slot, isFree = () => true) {
  const free = lanes.filter((lane) => lane.last < slot && isFree(lane));
  return free.reduce((best, lane) => (!best || lane.last > best.last ? lane : best), null);
}

/** Adds what was a lane of its own to another, or to none. */
function addTo(lanes, lane, { lives, bars, last, hasEnded }) {
  if (!lane) lanes.push((lane = { lives: [], bars: [], openFrom: null }));
  for (const life of lives) lane.lives.push(life);
  for (const bar of bars) lane.bars.push(bar);
  return Object.assign(lane, { last, hasEnded });
}

let firsts = null; // by each process the first one in its lane, once they are asked for

/** By each process the one that it goes on from, and that one's in turn: a client goes on as a new process after a call that never
 * returned. It is the same in every view. */
function firstsOf() {
  const lanes = [], found = new Map();
  for (const life of livesOf(barsOf(calls, eventLines(calls, false), false))) {
    const lane = addTo(lanes, freeLane(lanes, life.first, ({ hasEnded }) => hasEnded), { ...life, lives: [life], bars: [] });
    found.set(life.process, lane.lives[0].process);
  }
  return found;
}

/** The lanes of these bars, one for each client; where there are many, it goes on in the lane of one that calls no more. */
function lanesOf(bars, isCore) {
  firsts ??= firstsOf();
  const clients = new Map(), lanes = [];
  for (const life of livesOf(bars)) {
    const first = firsts.get(life.process), own = clients.get(first) ?? addTo([], null, { lives: [], bars: [] });
    clients.set(first, addTo([], own, { ...life, lives: [life], bars: life.bars }));
  }
  const areMany = !isCore && clients.size > MOST_LANES;
  for (const client of clients.values()) addTo(lanes, areMany ? freeLane(lanes, client.lives[0].first) : null, client);
  return lanes.sort((a, b) => a.lives[0].process - b.lives[0].process);
}

/** Ends each open bar where the next one in its lane begins. */
function endOpenBars(lane) {
  lane.bars.forEach((bar, index) => {
    const next = lane.bars[index + 1];
    if (!bar.isOpen || !next) return;
    bar.end = next.start - 1;
    bar.goesOn = true;
    lane.openFrom ??= next.start;
  });
}

/** A view of these calls. */
function viewOf(chosen, isCore) {
  const lines = eventLines(chosen, isCore), bars = barsOf(chosen, lines, isCore), lanes = lanesOf(bars, isCore);
  lanes.forEach((lane, index) => {
    lane.bars.forEach((bar) => { bar.lane = index; });
    endOpenBars(lane);
  });
  const marked = isCore ? [] : bars.filter(({ call }) => call.core || call.state === "next" || gets.includes(call));
  return { isCore, lines, lanes, marked, bars: new Map(bars.map((bar) => [bar.call, bar])) };
}

/** The index of the first of these bars that ends at this slot or later. */
function firstFrom(bars, slot) {
  let low = 0, high = bars.length;
  while (low < high) {
    const middle = (low + high) >> 1;
    if (bars[middle].end < slot) low = middle + 1;
    else high = middle;
  }
  return low;
}

/** Whether a call is of the object, and has a key, a value or a text that is the words. */
function matches(call, object, words) {
  if (object && call.object.name !== object) return false;
  if (!words) return true;
  return [...call.args, replyOf(call)].some((value) => value !== null && (value === words || values.get(value)?.includes(words)));
}

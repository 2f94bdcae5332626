// Who put the value that a call took, and the real-time order without which the calls of the core would have an order.

const MOST_TRIED = 300_000; // steps to find which part of the real-time order of a core matters
const MOST_PUTS = 4, MOST_PAIRS = 16; // arrows to a call, and from one
const MOST_IN_MASK = 30; // calls whose subsets are numbered by bits

/** What the call put where another could take it, as text: a value, of a map under its key; or null. */
function putBy(call) {
  const [first, second] = call.args, did = replyOf(call) === "true";
  switch (`${call.object.kind} ${call.op}`) {
    case "register write": case "queue enq": case "stack push": return first;
    case "register cas": return did ? second : null;
    case "set add": return did ? first : null;
    case "map put": return `${first}: ${second}`;
    default: return null;
  }
}

/** What the call saw or took that another must have put, in the same form. */
function takenBy(call) {
  const [first] = call.args, reply = replyOf(call);
  const there = reply === null || reply === "empty" ? null : reply;
  switch (`${call.object.kind} ${call.op}`) {
    case "register read": case "queue deq": case "stack pop": return there;
    case "register cas": return reply === "true" ? first : null;
    case "set add": return reply === "false" ? first : null;
    case "set remove": case "set contains": return reply === "true" ? first : null;
    case "map get": return there === null ? null : `${first}: ${there}`;
    default: return null;
  }
}

/** What is told of a call, with its object, so that what is told of calls on others differs. */
const keyOf = (call, what) => `${call.object.name} ${what}`;

/** These calls by what this tells of each; those of which it tells nothing are left out. */
function groupsBy(chosen, what) {
  const groups = new Map();
  for (const call of chosen.filter((it) => what(it) !== null)) {
    const key = keyOf(call, what(call));
    if (groups.has(key)) groups.get(key).push(call);
    else groups.set(key, [call]);
  }
  return groups;
}

/** Of calls that come before this line in some order those that may be the last: none of the others came between for sure. */
function mayBeLast(found, line) {
  const latest = found.reduce((last, call) => (call.returned < line ? Math.max(last, call.line) : last), -Infinity);
  return found.filter((call) => call.returned > latest);
}

/** The pairs of a call that put what this one took, and this one. Of many those that may be the last before it was taken. */
function pairsOfTaker(taker, puts) {
  const all = takenBy(taker) === null ? [] : (puts.get(keyOf(taker, takenBy(taker))) ?? []).filter((putter) => putter !== taker);
  const early = all.filter((putter) => putter.line < taker.returned);
  const found = early.length ? mayBeLast(early, taker.line).slice(-MOST_PUTS) : all.slice(0, 1);
  return found.map((putter) => ({ putter, taker, isOneOfMany: found.length > 1 }));
}

/** The pairs of calls of the core. */
function pairsOfCore() {
  const puts = groupsBy(core, putBy);
  return core.flatMap((taker) => pairsOfTaker(taker, puts));
}

let allPuts = null, allTakers = null; // of all calls, once they are asked for

/** The pairs of all calls that this one is of. */
function pairsAround(call) {
  allPuts ??= groupsBy(calls, putBy);
  allTakers ??= groupsBy(calls, takenBy);
  const takers = putBy(call) === null ? [] : allTakers.get(keyOf(call, putBy(call))) ?? [];
  const late = takers.filter((taker) => taker.returned > call.line).slice(0, MOST_PAIRS);
  const pairs = [call, ...late].flatMap((taker) => pairsOfTaker(taker, allPuts));
  return pairs.filter(({ putter, taker }) => putter === call || taker === call);
}

/** When the call returned, as the core takes it. */
function returnedInCore(call) {
  return call.core?.isPending ? Infinity : call.returned;
}

/** The pairs of calls of the core of which the first returned before the second was called, the farthest apart first. */
function precedences() {
  const pairs = core.flatMap((before) => core.filter((after) => returnedInCore(before) < after.line).map((after) => [before, after]));
  return pairs.sort(([a, b], [c, d]) => d.line - c.returned - (b.line - a.returned));
}

/** The same without the pairs that others imply. */
function nearestPrecedences() {
  return core.flatMap((after) => {
    const before = core.filter((call) => returnedInCore(call) < after.line);
    return mayBeLast(before, after.line).map((call) => [call, after]);
  });
}

/** A text that no other state has. */
function stateKey(state) {
  return Object.values(state).map((part) => (part instanceof Object ? [...part].join() : String(part))).join("|");
}

/** Whether the calls of the core have an order that keeps these pairs, unless too many steps were taken to tell. */
function hasOrder(pairs, tried) {
  const before = core.map((call) => pairs.filter(([, after]) => after === call).reduce((mask, [it]) => mask | (1 << core.indexOf(it)), 0));
  const returned = core.reduce((mask, call, bit) => (returnedInCore(call) === Infinity ? mask : mask | (1 << bit)), 0);
  const refuted = new Set();
  const goesOn = (state, done) => {
    if ((returned & ~done) === 0) return true;
    const known = `${done} ${stateKey(state)}`;
    if (refuted.has(known) || ++tried.steps > MOST_TRIED) return false;
    refuted.add(known);
    return core.some((call, bit) => {
      if (done & (1 << bit) || before[bit] & ~done) return false;
      const next = state.copy(), reply = next.step(call.process, call.op, call.args);
      return reply !== null && (returnedInCore(call) === Infinity || reply === call.reply) && goesOn(next, done | (1 << bit));
    });
  };
  const object = core[0].object, states = data.hasStart ? [startOf(object)] : statesBefore(object, core);
  return states.some((state) => goesOn(state, 0));
}

/** The part of the real-time order of the core without which it would have an order: none of its pairs can be left out. Null where
 * too many steps would be needed to find it. */
function leastOrder() {
  if (core.length > MOST_IN_MASK) return null;
  const tried = { steps: 0 };
  let needed = precedences();
  if (hasOrder(needed, tried)) return null;
  for (const pair of needed) {
    const rest = needed.filter((it) => it !== pair);
    if (!hasOrder(rest, tried)) needed = rest;
  }
  return tried.steps > MOST_TRIED ? null : needed;
}

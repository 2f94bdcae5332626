// The seven kinds of objects, and the state after each call of the run.

const MOST_ITEMS = 16; // of a state as it is shown
const LEAST = -(2n ** 63n), GREATEST = 2n ** 63n - 1n;

const byNumber = (a, b) => (BigInt(a) < BigInt(b) ? -1 : BigInt(a) > BigInt(b) ? 1 : 0);

/** So many items and no more, with this one first among them. */
function shownItems(items, first) {
  const sorted = items.includes(first) ? [first, ...items.filter((item) => item !== first)] : items;
  const more = sorted.length - MOST_ITEMS;
  return [...sorted.slice(0, MOST_ITEMS), ...(more > 0 ? [`.. and ${more} more`] : [])].join(", ");
}

// Each kind has `step`, which does a call and gives its reply, or `null` where the call has no step; `copy`; and `text`, which
// names a key or a member first where it is one of the call that is shown.

class Register {
  constructor(value) { this.value = value; }
  copy() { return new Register(this.value); }
  text() { return valueOf(this.value); }
  step(_, op, [first, second]) {
    if (op === "read") return this.value;
    if (op === "cas" && this.value !== first) return "false";
    this.value = op === "cas" ? second : first;
    return op === "cas" ? "true" : "ok";
  }
}

class Counter {
  constructor(value) { this.value = BigInt(value); }
  copy() { return new Counter(this.value); }
  text() { return String(this.value); }
  step(_, op, [added]) {
    if (op === "get") return String(this.value);
    const sum = this.value + BigInt(added);
    if (sum < LEAST || sum > GREATEST) return null;
    this.value = sum;
    return "ok";
  }
}

class Queue {
  constructor(items = []) { this.items = items; this.taken = 0; }
  copy() { return new Queue(this.items.slice(this.taken)); }
  text() { return `[${shownItems(this.items.slice(this.taken).map(valueOf))}]`; }
  step(_, op, [item]) {
    if (op === "enq") return this.items.push(item) && "ok";
    return this.taken < this.items.length ? this.items[this.taken++] : "empty";
  }
}

class Stack {
  constructor(items = []) { this.items = items; }
  copy() { return new Stack(this.items.slice()); }
  text() { return `[${shownItems(this.items.slice().reverse().map(valueOf))}]`; }
  step(_, op, [item]) {
    if (op === "push") return this.items.push(item) && "ok";
    return this.items.length ? this.items.pop() : "empty";
  }
}

class Members {
  constructor(members = []) { this.members = new Set(members); }
  copy() { return new Members(this.members); }
  text(first) { return `{${shownItems([...this.members].sort(byNumber).map(valueOf), valueOf(first))}}`; }
  step(_, op, [member]) {
    const was = this.members.has(member);
    if (op === "add") this.members.add(member);
    if (op === "remove") this.members.delete(member);
    return String(op === "add" ? !was : was);
  }
}

class Mutex {
  constructor(holder = null) { this.holder = holder; }
  copy() { return new Mutex(this.holder); }
  text() { return this.holder === null ? "free" : `held by ${this.holder}`; }
  step(process, op) {
    if (op === "try_lock" && this.holder !== null) return "false";
    if (op === "unlock" ? this.holder !== process : this.holder !== null) return null;
    this.holder = op === "unlock" ? null : process;
    return op === "try_lock" ? "true" : "ok";
  }
}

class Pairs {
  constructor(pairs = []) { this.pairs = new Map(pairs); }
  copy() { return new Pairs(this.pairs); }
  text(first) {
    const pair = (key) => `${valueOf(key)}: ${valueOf(this.pairs.get(key))}`;
    const keys = [...this.pairs.keys()].sort(byNumber);
    return `{${shownItems(keys.map(pair), this.pairs.has(first) ? pair(first) : "")}}`;
  }
  step(_, op, [key, value]) {
    if (op === "get") return this.pairs.get(key) ?? "empty";
    if (op === "delete") return String(this.pairs.delete(key));
    this.pairs.set(key, value);
    return "ok";
  }
}

const KINDS = { register: Register, counter: Counter, queue: Queue, stack: Stack, set: Members, mutex: Mutex, map: Pairs };

/** The state with which an object starts. */
function startOf(object) {
  const Kind = KINDS[object.kind];
  return object.start === null ? new Kind() : new Kind(object.start);
}

/** The states that stand for all that an object may have held before these calls on one key or item of it: nothing, each value that
 * they name, and another one. */
function statesBefore(object, some) {
  const texts = some.flatMap(({ args, reply }) => [...args, reply]), named = [...new Set(texts.filter((it) => /^-?\d+$/.test(it))), "another"];
  const [key] = some[0].args;
  if (object.kind === "register") return [startOf(object), ...named.map((value) => new Register(value))];
  if (object.kind === "mutex") return [null, ...some.map(({ process }) => process)].map((holder) => new Mutex(holder));
  if (object.kind === "set") return [new Members(), new Members([key])];
  return [new Pairs(), ...named.map((value) => new Pairs([[key, value]]))];
}

/** How far the run was stepped through: its first calls, and the state of each object after them. */
const stepped = { count: 0, states: new Map() };

/** The state of the object of a call of the run after that call, as text. */
function stateAfter(call) {
  if (stepped.count > call.place) Object.assign(stepped, { count: 0, states: new Map() });
  while (stepped.count < call.place) {
    const next = run[stepped.count++], states = stepped.states;
    if (!states.has(next.object)) states.set(next.object, startOf(next.object));
    states.get(next.object).step(next.process, next.op, next.args);
  }
  return stepped.states.get(call.object).text(call.args[0]);
}

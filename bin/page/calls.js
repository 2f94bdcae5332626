// The calls of the history, and what is said of each.

const data = JSON.parse(document.getElementById("data").textContent);

/** The values for which a recorder wrote numbers, in quotes, by their numbers. */
const values = new Map(Object.entries(data.values));

/** A call that never returned has no reply of its own; its return is on no line. */
const calls = data.calls.map(([process, object, op, args, line, returned, reply], number) => ({
  number, process, op, args, line, reply,
  object: data.objects[object],
  returned: returned ?? Infinity,
  place: 0, // in the order, or in the longest run, from 1; 0 where it is in none
  state: "rest",
  here: "", // of a call that could come next, what the text says of it
  core: null, // of a call of the core, whether the core takes it as pending
}));

const run = data.run.map((number) => calls[number]);
const core = data.core.map(([number]) => calls[number]);
const gets = data.gets.map((number) => calls[number]); // of a counter, whose sums leave no room for the reply of the last one
const runName = data.linearizable ? "order" : "longest run";

run.forEach((call, index) => Object.assign(call, { place: index + 1, state: "run" }));
for (const [number, reply] of data.completed) calls[number].completed = reply;
for (const number of data.dropped) calls[number].state = "dropped";
for (const [number, here] of data.next) Object.assign(calls[number], { state: "next", here });
for (const [number, isPending] of data.core) calls[number].core = { isPending };

/** What a number stands for, or the number itself. */
function valueOf(number) {
  return values.get(number) ?? number;
}

/** The call returned nothing that anybody saw. */
function isPending(call) {
  return call.returned === Infinity;
}

/** The reply of a call, or the one that the order gives it. */
function replyOf(call) {
  return call.reply ?? call.completed ?? null;
}

/** The operation with its arguments; with other words for the values where such are given. */
function operation(call, value = valueOf) {
  return `${call.op}(${call.args.map(value).join(",")})`;
}

/** The same with its reply, as the text has it. */
function said(call, value = valueOf) {
  const reply = replyOf(call);
  return operation(call, value) + (reply === null ? "" : ` = ${value(reply)}${isPending(call) ? " completed" : ""}`);
}

function linesOf(call) {
  return isPending(call) ? `line ${call.line}; it never returned` : `lines ${call.line} and ${call.returned}`;
}

/** Where the call stands in the answer. */
function placeOf(call) {
  if (call.state === "run") return `place ${call.place} of ${run.length} in the ${runName}`;
  if (call.state === "next") return `could come next after the longest run: ${call.here}`;
  if (call.state === "dropped") return "the order leaves it out";
  return run.length && (data.linearizable || call.object.name === data.object) ? `not in the ${runName}` : "";
}

/** The calls that matter for the sums: those on the counter that are not over before the first get, nor begin after the last. */
function callsOfSums() {
  const from = gets.length > 1 ? gets[0].line : 0;
  return calls.filter((call) => call.object === gets[0].object && call.returned > from && call.line < gets.at(-1).returned);
}

/** The call of which this line is one, or null. */
function callOn(line) {
  return calls.find((call) => call.line === line || call.returned === line) ?? null;
}

/** What is shown where the cursor is on a call. */
function toldOf(call) {
  const numbers = said(call, (number) => number);
  return [
    `process ${call.process}, ${call.object.name}: ${said(call)}`,
    linesOf(call),
    placeOf(call),
    call.place ? `after it: ${call.object.name} = ${stateAfter(call)}` : "",
    call.core ? `one of the calls that alone have no order${call.core.isPending && !isPending(call) ? ", which needs no reply for that" : ""}` : "",
    call === gets.at(-1) ? "no order gives it this reply" : "",
    numbers === said(call) ? "" : `in the input: ${numbers}`,
  ].filter((line) => line);
}

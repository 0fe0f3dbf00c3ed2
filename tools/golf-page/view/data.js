"use strict";
// The goroutines of the run, and what each of them does at a moment. A moment is the state after a turn. Moment 0 is the
// state before the first turn. In the lanes moment m lasts from m to m + 1.

const data = JSON.parse(document.getElementById("data").textContent);
const last = data ? data.last : 0;

// ---- small things

const $ = id => document.getElementById(id);
const count = number => number.toLocaleString("en");
const many = (number, word) => `${count(number)} ${word}${number === 1 ? "" : "s"}`;

function element(tag, classes, text) {
  const made = document.createElement(tag);
  if (classes) made.className = classes;
  if (text !== undefined) made.textContent = text;
  return made;
}

function drawn(tag, attributes, text) {
  const made = document.createElementNS("http://www.w3.org/2000/svg", tag);
  for (const name in attributes) made.setAttribute(name, attributes[name]);
  if (text !== undefined) made.textContent = text;
  return made;
}

/** Returns the first place in 0 .. length at which the test holds. It must hold from there on. */
function firstPlace(length, test) {
  let low = 0, high = length;
  while (low < high) {
    const middle = (low + high) >> 1;
    if (test(middle)) high = middle; else low = middle + 1;
  }
  return low;
}

// ---- goroutines

const known = (number, otherwise) => number < 0 ? otherwise : number;

function goroutineOf([number, name, started, begin, end, dead, reported, removed, waits]) {
  const goroutine = {
    number, name, started, begin, turns: [],
    end: known(end, Infinity), dead: known(dead, Infinity),
    reported: reported < 0 ? Infinity : turnOfCollection.get(reported), reportedBy: reported,
    removed: removed < 0 ? Infinity : turnOfCollection.get(removed), removedBy: removed,
  };
  goroutine.waits = waits.map(([begin, end, spot, kind, changes]) => ({
    begin, end: known(end, Infinity), spot, changes, kind: kind < 0 ? undefined : data.kinds[kind],
  }));
  return goroutine;
}

const turnOfCollection = new Map(data ? data.collections : []);
const goroutines = data ? data.goroutines.map(goroutineOf) : [];
const byNumber = new Map(goroutines.map(goroutine => [goroutine.number, goroutine]));
if (data) data.who.forEach((number, at) => byNumber.get(number)?.turns.push(at + 1));

// ---- places

/** Returns the words for a spot. A spot below 0 is in generated code. */
function place(spot) {
  if (spot < 0) {
    const [name, before] = data.generated[-1 - spot];
    return before ? `${name} after ${place(before)}` : `${name} (generated)`;
  }
  const [row, column] = data.spots[spot - 1];
  const [name, before] = data.files.findLast(([, before]) => before < row);
  return column ? `${name}:${row - before}:${column}` : `line ${row - before}`;
}

/** Returns the row that is marked for a spot: in generated code that at which the goroutine was before, 0 if there is none. */
function markedRow(spot) {
  const own = spot < 0 ? data.generated[-1 - spot][1] : spot;
  return own ? data.spots[own - 1][0] : 0;
}

// ---- kinds of waits

function kindClass(wait) {
  if (wait === "chan receive") return "receive";
  if (wait === "chan send") return "send";
  if (wait === "select") return "select";
  if (wait?.startsWith("sync.Cond")) return "condition";
  if (wait?.startsWith("sync.WaitGroup")) return "group";
  return wait?.startsWith("sync.") ? "lock" : "other";
}

function objectKind(wait) {
  if (wait.startsWith("chan") || wait === "select") return "channel";
  if (wait.startsWith("sync.Cond")) return "condition";
  if (wait.startsWith("sync.WaitGroup")) return "wait group";
  return wait.startsWith("sync.RW") ? "rwmutex" : wait.startsWith("sync.") ? "mutex" : "object";
}

/** The kinds of the objects on which goroutines wait. A wait names its kind, and its chain ends with the object. */
const kindOfObject = new Map();
for (const goroutine of goroutines) {
  for (const wait of goroutine.waits) {
    for (let at = 1; wait.kind && at < wait.changes.length; at += 2) {
      const object = data.chains[wait.changes[at]].at(-1);
      if (object > 0) kindOfObject.set(object, objectKind(wait.kind));
    }
  }
}
const memberName = number => number > 0 ? `${kindOfObject.get(number) ?? "object"} ${number}` : `G${-number}`;

// ---- states

/** Returns the wait of a goroutine at a moment, or undefined. */
function waitAt(goroutine, moment) {
  const wait = goroutine.waits[firstPlace(goroutine.waits.length, at => goroutine.waits[at].begin > moment) - 1];
  return wait && moment < wait.end ? wait : undefined;
}

/** Returns the last looked-at moment that is not after this one, or -1. */
function lookBefore(moment) {
  if (data.looks === null) return Math.min(moment, last - (data.ended ? 1 : 0));
  return data.looks[firstPlace(data.looks.length, at => data.looks[at] > moment) - 1] ?? -1;
}

/** Returns the chain that reaches a goroutine in its wait, with the moment at which it was seen, or undefined. If there was
 * no look in the wait so far, the first one that comes in it is taken. */
function chainAt({ changes }, moment) {
  if (!changes.length) return undefined;
  const before = 2 * (firstPlace(changes.length / 2, at => changes[2 * at] > moment) - 1), at = Math.max(0, before);
  return { moment: before < 0 ? changes[0] : Math.max(lookBefore(moment), changes[at]), members: data.chains[changes[at + 1]] };
}

/** Returns the spot at which a goroutine that can run is: that of its next turn. If it takes none, it is that of its last. */
function spotOf(goroutine, moment) {
  const at = firstPlace(goroutine.turns.length, place => goroutine.turns[place] > moment);
  const turn = goroutine.turns[at] ?? goroutine.turns.at(-1);
  return turn === undefined ? undefined : data.spot[turn - 1];
}

const runsAt = (goroutine, moment) => moment > 0 && data.who[moment - 1] === goroutine.number;

/** Returns what a goroutine does at a moment: the name of the state, its words and its class; of a wait its kind and spot. */
function stateOf(goroutine, moment) {
  if (moment < goroutine.begin) return { name: "absent", text: "not started", classes: "" };
  if (moment >= goroutine.removed) return { name: "gone", text: "taken back", classes: "" };
  const wait = waitAt(goroutine, moment);
  if (wait) return waitState(goroutine, wait, moment);
  const runs = runsAt(goroutine, moment), classes = runs ? "is-run" : "";
  if (data.fault && moment === last && goroutine.number === data.fault[0]) {
    return { name: "ended", text: `crashed at ${place(data.fault[1])}`, classes: "is-dead" };
  }
  if (moment >= goroutine.end) return { name: "ended", text: runs ? "runs, and ends" : "ended", classes };
  if (runs) return { name: "runs", text: `runs ${place(data.spot[moment - 1])}`, classes };
  if (goroutine.number === 0) return { name: "free", text: "no turn", classes };
  const spot = spotOf(goroutine, moment);
  return { name: "free", text: spot === undefined ? "can run" : `can run, ${place(spot)}`, classes };
}

function waitState(goroutine, wait, moment) {
  const shared = { kind: wait.kind ?? "blocked", spot: wait.spot, wait };
  if (moment >= goroutine.dead) {
    return { name: "dead", text: `dead at ${place(wait.spot)}`, classes: "is-dead", ...shared };
  }
  const chain = chainAt(wait, moment), classes = kindClass(wait.kind);
  const asleep = data.asleep && moment === last;
  const text = asleep ? `asleep at ${place(wait.spot)}` : `${shared.kind}, ${place(wait.spot)}`;
  return { name: asleep ? "asleep" : "blocked", text, classes, chain, ...shared };
}

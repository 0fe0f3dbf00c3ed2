// The moment that is shown, and what moves it: keys, slider, buttons and the address.

let now = -1;         // the moment
let selected = null;  // the number of the selected goroutine
let settle = 0;       // a timer: the address follows a little later
let playing = 0;      // a timer, while the page plays

const printedRows = [...document.querySelectorAll(".lines li[data-t]")].map(row => ({
  row, turn: +row.dataset.t, number: row.dataset.g === undefined ? undefined : +row.dataset.g,
}));

// ---- showing a moment

function show(moment, again) {
  moment = Math.max(0, Math.min(last, Math.round(moment)));
  if (moment === now && !again) return;
  now = moment;
  const focused = document.activeElement;
  follow(moment);
  const states = goroutines.map(goroutine => [goroutine, stateOf(goroutine, moment)]);
  const stateByNumber = new Map(states.map(([goroutine, state]) => [goroutine.number, state]));
  $("field").style.setProperty("--x", share(moment));
  $("head").firstChild.textContent = count(moment);
  $("slider").value = moment;
  $("slider").setAttribute("aria-valuetext", `after turn ${moment} of ${last}`);
  for (const row of rows) showLane(row, stateByNumber);
  showNow(moment, states);
  showPrinted(moment);
  showSource(moment, states);
  showWhy(moment, states);
  keepFocus(focused);
  clearTimeout(settle);
  settle = setTimeout(() => history.replaceState(null, "", address()), 150);
}

/** Chips and reasons are made anew. If one of them had the focus, the new one of the same goroutine gets it. */
function keepFocus(focused) {
  if (document.contains(focused) || !focused.dataset.g) return;
  document.querySelector(`.${focused.classList[0]}[data-g="${focused.dataset.g}"]`)?.focus({ preventScroll: true });
}

const address = () => `#t=${now}${selected === null ? "" : `&g=${selected}`}`;

function showLane({ goroutine, list, lane, state }, states) {
  if (list) {
    showFoldState(list, state, states);
    return;
  }
  const { name, kind, spot, text, classes } = states.get(goroutine.number);
  if (name === "blocked") state.replaceChildren(element("span", "long", `${kind}, `), place(spot));
  else state.textContent = text;
  state.className = classes;
  lane.classList.toggle("selected", goroutine.number === selected);
}

function showFoldState(list, state, states) {
  const found = list.map(goroutine => states.get(goroutine.number));
  state.textContent = countsOf(found) || "none blocked";
  state.className = found.some(({ name }) => name === "dead") ? "is-dead" : "";
}

/** Returns how many of these states are blocked, asleep and dead. */
function countsOf(states) {
  const counts = ["blocked", "asleep", "dead"].map(name => [states.filter(state => state.name === name).length, name]);
  return counts.filter(([number]) => number).map(([number, name]) => `${count(number)} ${name}`).join(", ");
}

/** Writes what happened in the turn, and how many goroutines are blocked and dead. */
function showNow(moment, states) {
  const counts = countsOf(states.map(([, state]) => state)) || "nobody is blocked";
  const parts = [whatHappened(moment), data.asleep && moment === last ? "all goroutines are asleep" : counts];
  const collections = data.collections.filter(([, turn]) => turn === moment).map(([number]) => count(number));
  if (collections.length) parts.push(`collection ${collections.join(" and ")}`);
  if (moment === last) parts.push(data.ended ? "the run ended" : "the run was stopped");
  const head = element("b", "", moment === 0 ? "start" : `turn ${count(moment)}`);
  $("now").replaceChildren(head, ` of ${count(last)}: ${parts.filter(Boolean).join("; ")}.`);
}

/** Dims the rows of output and report that come later. */
function showPrinted(moment) {
  for (const printed of printedRows) {
    printed.row.classList.toggle("later", printed.turn > moment);
    printed.row.classList.toggle("selected", printed.number !== undefined && printed.number === selected);
  }
}

function select(number) {
  selected = selected === number ? null : number;
  show(now, true);
  const goroutine = byNumber.get(selected);
  if (goroutine) scrollToSpot(stateOf(goroutine, now).spot ?? goroutine.started);
}

// ---- what happens in a turn

const happenings = new Map(); // of a moment: [words for one, words for several, number] of each change

function addHappening(moment, one, several, number) {
  if (moment > last || moment < 1) return;
  if (!happenings.has(moment)) happenings.set(moment, []);
  happenings.get(moment).push([one, several, number]);
}

function buildHappenings() {
  for (const { number, begin, end, dead, waits } of goroutines) {
    if (number > 1) addHappening(begin, "is started", "are started", number);
    for (const wait of waits) {
      addHappening(wait.begin, "blocks", "block", number);
      addHappening(wait.end, "is woken", "are woken", number);
    }
    if (!waits.some(wait => wait.begin === dead)) addHappening(dead, "is dead", "are dead", number);
    addHappening(end, "ends", "end", number);
  }
}

function whatHappened(moment) {
  if (moment === 0) return "";
  const runner = data.who[moment - 1], changes = new Map();
  const parts = [`G${runner} runs ${place(data.spot[moment - 1])}`];
  for (const [one, several, number] of happenings.get(moment) ?? []) {
    if (number === runner && one !== "is dead") parts[0] += ` and ${one}`;
    else changes.set(one, [...changes.get(one) ?? [], [several, number]]);
  }
  for (const [one, list] of changes) {
    const all = list.map(([, number]) => `G${number}`);
    const names = all.length > 3 ? `${count(all.length)} goroutines` : all.join(" and ");
    parts.push(`${names} ${list.length === 1 ? one : list[0][0]}`);
  }
  return parts.join(", ");
}

/** The moments at which something changes: the keys P and N go to them. */
let changeMoments = [];

function buildChanges() {
  const moments = new Set([0, last, ...happenings.keys(), ...data.printed, ...data.collections.map(([, turn]) => turn)]);
  changeMoments = [...moments].sort((a, b) => a - b);
}

const nextChange = () => show(changeMoments[firstPlace(changeMoments.length, at => changeMoments[at] > now)] ?? last);
const previousChange = () => show(changeMoments[firstPlace(changeMoments.length, at => changeMoments[at] >= now) - 1] ?? 0);

// ---- playing

function play() {
  if (playing) {
    clearInterval(playing);
    playing = 0;
  } else {
    if (now >= last) show(0);
    const stride = Math.max(1, Math.round(last / 750)), pause = Math.max(16, Math.min(350, 12000 / Math.max(1, last)));
    playing = setInterval(() => { show(now + stride); if (now >= last) play(); }, pause);
  }
  $("now").setAttribute("aria-live", playing ? "off" : "polite");
  $("i-play").setAttribute("d", playing ? "M3 2h3v10H3zM8 2h3v10H8z" : "M3 1.5v11l9-5.5z");
  $("b-play").setAttribute("aria-label", playing ? "stop" : "play");
}

function zoom() {
  if (last < NEAR) return;
  setView(!view.near, now);
  show(now, true);
}

// ---- keys, pointer and address

const KEYS = {
  ArrowLeft: event => show(now - (event.shiftKey ? 10 : 1)), ArrowRight: event => show(now + (event.shiftKey ? 10 : 1)),
  Home: () => show(0), End: () => show(last), n: nextChange, p: previousChange, z: zoom, " ": play,
};

function onKey(event) {
  if (event.ctrlKey || event.metaKey || event.altKey) return;
  const key = event.key.length === 1 ? event.key.toLowerCase() : event.key;
  if (!KEYS[key] || (key === " " && event.target.closest("button, a"))) return;
  event.preventDefault();
  KEYS[key](event);
}

let dragging = false;

function drag(event) {
  const area = $("ruler").getBoundingClientRect();
  show(view.from + (event.clientX - area.left) / area.width * (view.to - view.from) - .5);
}

function onPointerDown(event) {
  if (event.button || event.target.closest(".who") || !event.target.closest(".ruler, .track")) return;
  dragging = true;
  if (event.target.closest(".ruler")) $("slider").focus({ preventScroll: true });
  drag(event);
}

/** Takes moment and goroutine from the address. Returns the moment, or undefined. */
function readAddress() {
  const turn = /(?:^#|&)t=(\d+)/.exec(location.hash), number = /(?:^#|&)g=(\d+)/.exec(location.hash);
  if (number && byNumber.has(+number[1])) selected = +number[1];
  return turn ? +turn[1] : undefined;
}

/** The page opens where most can be seen: at the last report, at a panic, or when most goroutines are blocked. */
function firstMoment() {
  const reported = goroutines.filter(goroutine => goroutine.reported <= last);
  const reports = reported.map(({ reported, removed }) => Math.min(reported, removed - 1));
  if (reports.length) return reports.reduce((most, moment) => Math.max(most, moment));
  if (data.fault) return last;
  const waits = goroutines.flatMap(goroutine => goroutine.waits);
  const changes = waits.flatMap(({ begin, end }) => [[begin, 1], [Math.min(end, last + 1), -1]]);
  changes.sort((a, b) => a[0] - b[0] || a[1] - b[1]);
  let number = 0, most = 0, found = last;
  changes.forEach(([, change], at) => {
    number += change;
    if (number >= most && number > 0) [most, found] = [number, (changes[at + 1]?.[0] ?? last + 1) - 1];
  });
  return found;
}

function listen() {
  const back = () => show(now - 1), on = () => show(now + 1);
  const buttons = { zoom, previous: previousChange, back, play, on, next: nextChange };
  for (const name in buttons) $(`b-${name}`).addEventListener("click", buttons[name]);
  $("slider").addEventListener("input", () => show(+$("slider").value));
  $("field").addEventListener("pointerdown", onPointerDown);
  addEventListener("pointermove", event => { if (dragging) { event.preventDefault(); drag(event); } });
  for (const name of ["pointerup", "pointercancel"]) addEventListener(name, () => { dragging = false; });
  addEventListener("keydown", onKey);
  addEventListener("hashchange", () => { const moment = readAddress(); if (moment !== undefined) show(moment, true); });
  addEventListener("resize", () => { drawLanes(); show(now, true); });
}

function start() {
  $("slider").max = last;
  $("b-zoom").hidden = last < NEAR;
  buildHappenings();
  buildChanges();
  buildLanes();
  buildLegend();
  drawLanes();
  for (const { row, turn } of printedRows) {
    if (row.closest("#output") && turn) row.append(element("small", "", `G${data.who[turn - 1]}`));
  }
  listen();
  show(readAddress() ?? firstMoment());
}

$("theme").addEventListener("click", () => {
  const root = document.documentElement, dark = matchMedia("(prefers-color-scheme: dark)").matches;
  root.style.colorScheme = (root.style.colorScheme || (dark ? "dark" : "light")) === "dark" ? "light" : "dark";
});
if (data) start(); else showRefusal();

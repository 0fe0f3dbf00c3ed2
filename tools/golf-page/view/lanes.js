// The lanes: one for each goroutine, or one for all that were started at one line, if they are many.

const MOST_LANES = 200;
const MOST_TALL_LANES = 12;
const NEAR = 200;         // so many turns are shown near a moment
const MOST_PIECES = 2400; // so many pieces of a lane can be told from each other

const view = { from: 0, to: last + 1, near: false };
const rows = [];          // of each lane: its goroutine or its list of goroutines, and its elements

const share = moment => (moment + .5 - view.from) / (view.to - view.from);
const percent = moment => `${(moment - view.from) / (view.to - view.from) * 100}%`;

// ---- one lane

const box = (from, to, top, height) => `M${from} ${top}H${to}V${top + height}H${from}Z`;

/** Returns [from, to] of the moments at which a goroutine took a turn. Pieces that are too near to be told apart are one. */
function turnsInView(goroutine, grain) {
  const turns = goroutine.turns, first = firstPlace(turns.length, at => turns[at] >= view.from), pieces = [];
  for (let at = first; at < turns.length && turns[at] < view.to; at++) {
    const piece = pieces.at(-1);
    if (piece && turns[at] - piece[1] <= grain) piece[1] = turns[at] + 1; else pieces.push([turns[at], turns[at] + 1]);
  }
  return pieces;
}

/** Returns the waits that are in view, up to the death of the goroutine. */
function waitsInView(goroutine) {
  const first = firstPlace(goroutine.waits.length, at => goroutine.waits[at].end > view.from), found = [];
  for (let at = first; at < goroutine.waits.length && goroutine.waits[at].begin < view.to; at++) {
    const { begin, end, kind, spot } = goroutine.waits[at], until = Math.min(end, goroutine.dead, last + 1);
    if (until > begin) found.push({ begin, end: until, kind, spot });
  }
  return found;
}

const trackPicture = () => drawn("svg", {
  viewBox: `${view.from} 0 ${view.to - view.from} 100`, preserveAspectRatio: "none", "aria-hidden": "true",
});

/** Draws the track of a goroutine. Far away, a wait is drawn over turns and leaves them the lower half, so that neither
 * hides the other. */
function drawTrack(track, goroutine) {
  const grain = (view.to - view.from) / MOST_PIECES, far = grain > 1, waits = new Map();
  const turns = turnsInView(goroutine, Math.max(0, grain - 1));
  const ran = (top, height) => ["ran", turns.map(([from, to]) => box(from, to, top, height)).join("")];
  for (const wait of waitsInView(goroutine)) {
    const key = `wait ${kindClass(wait.kind)}`;
    waits.set(key, (waits.get(key) ?? "") + box(wait.begin, Math.max(wait.end, wait.begin + grain), 18, 64));
  }
  const paths = [["free", freePath(goroutine)], ...far ? [ran(18, 64)] : [], ...waits, far ? ran(50, 32) : ran(18, 64)];
  const picture = trackPicture();
  picture.append(...paths.filter(([, d]) => d).map(([classes, d]) => drawn("path", { class: classes, d })));
  track.replaceChildren(picture, ...deadBars(goroutine));
  drawTags(track, goroutine);
}

/** The thin line from the start of a goroutine to its end. Waits, turns and death are drawn over it. */
function freePath(goroutine) {
  if (goroutine.number === 0) return "";
  const end = Math.min(goroutine.end, goroutine.dead, last + 1);
  const begins = goroutine.waits.map(wait => wait.begin), ends = goroutine.waits.map(wait => Math.min(wait.end, end));
  const pieces = [goroutine.begin, ...ends].map((from, at) => [from, Math.min(begins[at] ?? end, end)]);
  const inView = pieces.filter(([from, to]) => from < to && to > view.from && from < view.to);
  return inView.map(([from, to]) => box(from, to, 46, 8)).join("");
}

/** Returns [from, to] of the times of a dead goroutine: not yet reported, reported, and taken back. The turn in which it
 * blocked is none of them. */
function deadTimes(goroutine) {
  const begin = goroutine.dead + (goroutine.turns.at(-1) === goroutine.dead ? 1 : 0);
  const told = Math.min(goroutine.reported, last + 1), gone = Math.min(goroutine.removed, last + 1);
  return { soon: [begin, told], told: [Math.max(begin, told), gone], gone: [gone, last + 1] };
}

function deadBars(goroutine) {
  if (goroutine.dead > last) return [];
  const pieces = Object.entries(deadTimes(goroutine)).map(([classes, [from, to]]) => [classes, from, to]);
  return pieces.filter(([, from, to]) => from < to).map(([classes, from, to]) => {
    const bar = element("div", `dead-bar ${classes}`);
    bar.style.left = percent(from);
    bar.style.width = `${(to - from) / (view.to - view.from) * 100}%`;
    return bar;
  });
}

/** Writes names into the bars that are wide enough for them. */
function drawTags(track, goroutine) {
  const width = track.clientWidth;
  if (!width || track.closest(".dense")) return;
  for (const wait of waitsInView(goroutine)) {
    const name = wait.kind ?? "blocked";
    addTag(track, width, [wait.begin + 1, wait.end], [`${name} · ${place(wait.spot)}`, name], "");
  }
  const { soon, told } = deadTimes(goroutine);
  addTag(track, width, soon, ["dead, not yet reported"], "hatched");
  addTag(track, width, told, ["dead, reported"], "");
}

function addTag(track, width, [begin, end], texts, classes) {
  const from = Math.max(begin, view.from), room = (Math.min(end, view.to) - from) / (view.to - view.from) * width;
  const text = texts.find(each => each.length * 6.3 + 14 < room);
  if (!text || from > last) return;
  const tag = element("span", `tag ${classes}`, text);
  tag.style.left = percent(from);
  if (!classes) tag.style.width = `${room}px`;
  track.append(tag);
}

const startOf = goroutine => goroutine.started ? `, started at ${place(goroutine.started)}` : "";

function laneOf(goroutine) {
  const lane = element("li", "lane"), who = element("button", "who"), name = element("b", "", `G${goroutine.number} `);
  const state = element("small"), track = element("div", "track");
  name.append(element("i", "", goroutine.name));
  who.append(name, state);
  who.title = `goroutine ${goroutine.number}, ${goroutine.name}${startOf(goroutine)}`;
  who.addEventListener("click", () => select(goroutine.number));
  lane.append(who, track);
  lane.dataset.g = goroutine.number;
  rows.push({ goroutine, lane, state, draw: () => drawTrack(track, goroutine) });
  return lane;
}

// ---- a lane of many goroutines

/** Returns how many of the goroutines are in each state at the moments of the view, as sums for each class. */
function counted(list, moments) {
  const sums = new Map();
  const add = (key, from, to) => {
    if (!sums.has(key)) sums.set(key, new Int32Array(moments.length + 1));
    const sum = sums.get(key), first = firstPlace(moments.length, at => moments[at] >= from);
    sum[first]++;
    sum[Math.max(first, firstPlace(moments.length, at => moments[at] >= to))]--;
  };
  for (const goroutine of list) {
    const end = Math.min(goroutine.end, goroutine.dead, last + 1);
    let free = goroutine.begin;
    for (const wait of waitsInView(goroutine)) {
      add("free", free, wait.begin);
      add(`wait ${kindClass(wait.kind)}`, wait.begin, wait.end);
      free = wait.end;
    }
    add("free", free, Math.max(free, end));
    if (goroutine.dead <= last) {
      const told = Math.min(goroutine.reported, last + 1);
      add("wait is-dead soon", goroutine.dead, told);
      add("wait is-dead", told, Math.min(goroutine.removed, last + 1));
    }
  }
  return sums;
}

/** Draws the counts of a fold one above the other. */
function drawFold(track, list) {
  const step = Math.max(1, (view.to - view.from) / 1200), moments = [];
  for (let moment = view.from; moment < view.to; moment += step) moments.push(Math.floor(moment));
  const sums = counted(list, moments), below = new Float64Array(moments.length);
  const keys = [...sums.keys()].sort((a, b) => orderOfFold(a) - orderOfFold(b));
  const picture = trackPicture();
  for (const key of keys) {
    picture.append(drawn("path", { class: key, d: foldPath(sums.get(key), below, moments, list.length) }));
  }
  track.replaceChildren(picture);
}

const orderOfFold = key => ["wait is-dead", "wait is-dead soon"].includes(key) ? 0 : key === "free" ? 2 : 1;

/** Returns the outline of one count above those below, and adds the count to them. */
function foldPath(sum, below, moments, most) {
  const up = [], down = [];
  let number = 0;
  moments.forEach((moment, at) => {
    const to = moments[at + 1] ?? view.to, height = value => (90 - value / most * 80).toFixed(2);
    number += sum[at];
    down.push(`L${to} ${height(below[at])}L${moment} ${height(below[at])}`);
    below[at] += number;
    up.push(`${at ? "L" : "M"}${moment} ${height(below[at])}L${to} ${height(below[at])}`);
  });
  return up.join("") + down.reverse().join("") + "Z";
}

function foldOf(list, name = list[0].name || "goroutines") {
  const lane = element("li", "lane fold"), who = element("button", "who"), state = element("small");
  const track = element("div", "track");
  who.append(element("b", "", `${count(list.length)} × ${name}`), state);
  who.title = `${count(list.length)} goroutines, ${name}${startOf(list[0])}`;
  who.setAttribute("aria-expanded", "false");
  lane.append(who, track);
  rows.push({ list, lane, state, draw: () => drawFold(track, list) });
  who.addEventListener("click", () => openFold(lane, who, list));
  return lane;
}

/** Opens or closes a fold: the lanes of its goroutines come after it. */
function openFold(lane, who, list) {
  if (lane.inner) {
    lane.inner.forEach(each => each.remove());
    for (let at = rows.length - 1; at >= 0; at--) if (lane.inner.includes(rows[at].lane)) rows.splice(at, 1);
    lane.inner = null;
  } else {
    lane.inner = list.slice(0, MOST_LANES).map(laneOf);
    if (list.length > MOST_LANES) lane.inner.push(element("li", "lane", `and ${count(list.length - MOST_LANES)} more`));
    lane.after(...lane.inner);
    for (const row of rows) if (lane.inner.includes(row.lane)) row.draw();
  }
  lane.classList.toggle("open", Boolean(lane.inner));
  who.setAttribute("aria-expanded", String(Boolean(lane.inner)));
  show(now, true);
}

// ---- all lanes

function buildLanes() {
  const lanes = $("lanes"), generated = goroutines.filter(isGenerated), own = goroutines.filter(each => !isGenerated(each));
  lanes.classList.toggle("dense", own.length > MOST_TALL_LANES);
  if (own.length <= MOST_LANES) lanes.append(...own.map(laneOf)); else foldByStart(lanes, own);
  if (generated.length) lanes.append(foldOf(generated, [...new Set(generated.map(({ name }) => name))].join(", ")));
}

/** Whether generated code has started a goroutine, and it has run no code of the user. */
function isGenerated({ number, started, turns }) {
  return number > 1 && started < 0 && turns.every(turn => data.spot[turn - 1] < 0);
}

/** Puts goroutines into lanes. Those that were started at one place are one lane, if they are some. */
function foldByStart(lanes, own) {
  const groups = new Map();
  for (const goroutine of own) {
    const key = goroutine.number < 2 ? String(goroutine.number) : `${goroutine.started} ${goroutine.name}`;
    groups.set(key, [...groups.get(key) ?? [], goroutine]);
  }
  for (const list of groups.values()) lanes.append(...list.length < 4 ? list.map(laneOf) : [foldOf(list)]);
}

/** Draws lanes, ruler and marks anew, after a change of the view or of the width. */
function drawLanes() {
  buildRuler();
  for (const row of rows) row.draw();
}

/** Shows 200 turns near a moment, or all. */
function setView(near, moment) {
  view.near = near;
  view.from = near ? Math.max(0, Math.min(moment - NEAR / 2, last + 1 - NEAR)) : 0;
  view.to = near ? Math.min(last + 1, view.from + NEAR) : last + 1;
  $("b-zoom").setAttribute("aria-pressed", String(near));
  drawLanes();
}

/** Moves the view if the moment comes near its edge. */
function follow(moment) {
  const edge = NEAR / 10, before = moment < view.from + edge && view.from > 0;
  const after = moment > view.to - edge && view.to <= last;
  if (view.near && (before || after)) setView(true, moment);
}

// ---- the ruler, and the marks across the lanes

const UNITS = [1, 10, 100, 1000, 10000, 100000].flatMap(power => [power, 2 * power, 5 * power]);

function buildRuler() {
  const ruler = $("ruler"), width = ruler.clientWidth || 600;
  ruler.querySelectorAll("span, em").forEach(each => each.remove());
  const end = Math.min(last, view.to - 1), least = (end - view.from) / Math.max(2, width / 58);
  const unit = UNITS.find(each => each >= least) ?? last;
  const put = turn => {
    const mark = element("span", "", count(turn));
    mark.style.left = `${share(turn) * 100}%`;
    ruler.append(mark);
  };
  for (let turn = Math.ceil(view.from / unit) * unit; turn <= end - unit * .6; turn += unit) put(turn);
  put(end);
  buildMarks(ruler, width);
}

function buildMarks(ruler, width) {
  const marks = [], shown = data.collections.filter(([, turn]) => turn >= view.from && turn < view.to);
  let before = -100;
  for (const [number, turn] of shown) {
    const line = element("div", "collection"), x = share(turn) * width;
    line.style.left = `${share(turn) * 100}%`;
    if (shown.length < 400) marks.push(line);
    if (x - before < 46) continue;
    before = x;
    const name = element("em", "", shown.length > 40 ? "GC" : `GC ${number}`);
    name.style.left = `${share(turn) * 100}%`;
    ruler.append(name);
  }
  const head = element("div", "play-head");
  head.id = "head";
  head.append(element("b"));
  $("plot").replaceChildren(...marks, head);
}

function buildLegend() {
  const put = (classes, text) => $("legend").append(element("span", classes, text));
  const kinds = new Map();
  const waits = goroutines.flatMap(goroutine => goroutine.waits.filter(wait => wait.begin < goroutine.dead));
  for (const { kind } of waits) {
    const classes = kindClass(kind);
    kinds.set(classes, (kinds.get(classes) ?? new Set()).add(kind ?? "blocked"));
  }
  put("is-run", "took this turn");
  put("l-free", "can run");
  for (const [classes, names] of kinds) put(classes, [...names].join(", "));
  const some = test => goroutines.some(test), end = last + 1;
  if (some(({ dead, reported }) => dead < Math.min(reported, end))) put("l-dead", "dead, not yet reported");
  if (some(({ reported, removed }) => reported < Math.min(removed, end))) put("is-dead", "dead, reported");
  if (some(({ removed }) => removed <= last)) put("l-gone", "taken back");
  if (data.collections.length) put("l-collection", "collection");
  if (data.left_out) put("l-text", `${many(data.left_out, "goroutine")} left out`);
}

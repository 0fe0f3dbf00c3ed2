// The marks in the source: where somebody is blocked, where a goroutine runs, and where a panic came from.

const MOST_CHIPS = 3;
const rowElements = new Map([...document.querySelectorAll("#source li[data-n]")].map(row => [+row.dataset.n, row]));
let marked = [];

function clearMarks() {
  for (const row of marked) {
    row.classList.remove("hit", "dead", "selected", "from", "runs");
    row.style.removeProperty("--k");
    row.querySelector(".at").replaceChildren();
  }
  marked = [];
}

/** Marks the rows of the moment. */
function showSource(moment, states) {
  clearMarks();
  const waiting = new Map();
  for (const [goroutine, state] of states) {
    const row = state.wait && markedRow(state.spot);
    if (row !== undefined) waiting.set(row, [...waiting.get(row) ?? [], [goroutine, state]]);
  }
  markRunning(moment);
  for (const [row, list] of waiting) markWaiting(row, list);
  markStart(byNumber.get(selected));
  showFault(moment);
  const number = [...waiting.values()].reduce((sum, list) => sum + list.length, 0);
  $("marks").textContent = number ? `${count(number)} blocked at ${many(waiting.size, "line")}` : "nobody is blocked";
  requestAnimationFrame(scrollToMarks);
}

function mark(row, classes) {
  const found = rowElements.get(row);
  if (!found) return undefined;
  found.classList.add(...classes);
  marked.push(found);
  return found.querySelector(".at");
}

function markRunning(moment) {
  const at = moment > 0 && mark(markedRow(data.spot[moment - 1]), ["runs"]);
  if (at) at.append(element("span", "chip ghost is-run", `G${data.who[moment - 1]} runs`));
}

function markWaiting(row, list) {
  const dead = list.some(([, state]) => state.name === "dead");
  const at = mark(row, dead ? ["hit", "dead"] : ["hit"]);
  if (!at) return;
  const line = rowElements.get(row);
  line.style.setProperty("--k", `var(--${dead ? "dead" : kindClass(list[0][1].wait.kind)})`);
  const shown = list.slice(0, list.length > MOST_CHIPS ? MOST_CHIPS - 1 : MOST_CHIPS);
  at.append(...shown.map(([goroutine, state]) => chipOf(goroutine, state)));
  if (list.length > shown.length) at.append(element("span", "chip ghost", `+${count(list.length - shown.length)}`));
  line.classList.toggle("selected", list.some(([goroutine]) => goroutine.number === selected));
}

function chipOf(goroutine, state) {
  const chip = element("button", `chip ${state.classes}`, `G${goroutine.number}`);
  chip.dataset.g = goroutine.number;
  chip.title = `goroutine ${goroutine.number}: ${state.text}`;
  chip.addEventListener("click", () => select(goroutine.number));
  return chip;
}

/** Marks the row at which the selected goroutine was started. */
function markStart(goroutine) {
  const at = goroutine && mark(markedRow(goroutine.started), ["from"]);
  if (!at) return;
  const row = rowElements.get(markedRow(goroutine.started));
  if (!row.classList.contains("hit")) row.classList.add("selected");
  at.append(element("span", "chip ghost", `starts G${goroutine.number}`));
}

/** Shows the callout of a panic at the last moment. */
function showFault(moment) {
  const fault = document.querySelector("#source .fault");
  if (!fault) return;
  fault.hidden = moment < last;
  if (moment === last) mark(markedRow(data.fault[1]), ["hit", "dead"]);
}

/** Brings the marks into view: all if that is possible, else those of blocked goroutines, else the first of these, unless
 * one is in view. */
function scrollToMarks() {
  const list = $("source"), high = list.clientHeight, top = list.scrollTop, room = high - 90;
  const blocked = topsOf(marked.filter(row => row.classList.contains("hit"))), all = topsOf(marked);
  if (!all.length || list.scrollHeight <= high) return;
  const tops = all.at(-1) - all[0] < room || !blocked.length ? all : blocked;
  const first = tops[0], end = tops.at(-1) + 21;
  let to = top;
  if (end - first < room) to = first < top ? first - 42 : end > top + high ? end - high + 42 : top;
  else if (!tops.some(each => each >= top && each + 21 <= top + high)) to = first - 42;
  if (to !== top) list.scrollTo({ top: Math.max(0, to), behavior: "instant" });
}

const topsOf = elements => elements.map(each => each.offsetTop).sort((a, b) => a - b);

function scrollToSpot(spot) {
  const found = rowElements.get(markedRow(spot)), list = $("source");
  if (found && list.scrollHeight > list.clientHeight) list.scrollTop = found.offsetTop - list.clientHeight / 2;
}

/** Marks the row of a refusal. */
function showRefusal() {
  const row = document.querySelector("#source .fault")?.closest("li").previousElementSibling;
  if (!row) return;
  row.classList.add("hit", "dead");
  $("source").scrollTop = Math.max(0, row.offsetTop - $("source").clientHeight / 3);
}

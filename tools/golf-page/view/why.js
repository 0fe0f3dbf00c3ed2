// Why each blocked goroutine is live or dead: a graph of the ways from the roots, and a list of reasons.

const MOST_REASONS = 100;
const MOST_SINGLE = 16; // beyond, goroutines that wait alike are shown together

// ---- goroutines that are shown together

/** Returns the blocked goroutines of a moment, live and dead. If they are many, goroutines that wait alike are one group. */
function groupsOf(states) {
  const live = new Map(), dead = new Map(), waiting = states.filter(([, state]) => state.wait);
  const put = (groups, key, goroutine, state) => {
    if (!groups.has(key)) groups.set(key, { state, members: [], chains: [] });
    groups.get(key).members.push(goroutine);
    if (state.chain) groups.get(key).chains.push(state.chain.members);
  };
  const together = waiting.length > MOST_SINGLE;
  for (const [goroutine, state] of waiting) {
    const isDead = state.name === "dead", common = isDead ? `${goroutine.started} ${goroutine.reported <= now}` : alike(state);
    put(isDead ? dead : live, together ? `${state.kind} ${state.spot} ${common}` : goroutine.number, goroutine, state);
  }
  return { live: [...live.values()], dead: [...dead.values()] };
}

/** The length of a chain and its first member: chains of a group have both in common. */
const alike = state => state.chain ? `${state.chain.members.length} ${state.chain.members[0]}` : "";

function namesOf(members) {
  if (members.length > 3) return `${count(members.length)} × ${members[0].name || "goroutines"}`;
  return members.map(goroutine => `G${goroutine.number}`).join(" ");
}

/** Returns the object that a dead goroutine waited on when it was last seen live, or undefined. */
function lastObject(goroutine) {
  const seen = lookBefore(goroutine.dead - 1), wait = goroutine.waits.at(-1);
  const chain = seen >= wait.begin ? chainAt(wait, seen) : undefined;
  return chain && chain.members.at(-1) > 0 ? { object: chain.members.at(-1), moment: seen } : undefined;
}

// ---- the graph: sizes

const OBJECT_WIDTH = 96, OBJECT_HEIGHT = 26, GOROUTINE_HEIGHT = 40, ROOT_WIDTH = 30, ROW_GAP = 12, TOP = 10;
const MOST_LIVE_GROUPS = 60, MOST_DEAD_GROUPS = 24;

/** Returns the width of the boxes of these groups. */
function boxWidth(groups) {
  const lengths = groups.map(({ state }) => `${shortKind(state.kind)}, ${place(state.spot)}`.length * 6.1 + 24);
  return Math.max(168, Math.min(250, Math.max(0, ...lengths)));
}

const shortKind = kind => kind.replace("sync.", "");
const shortened = (text, most) => text.length > most ? `${text.slice(0, most - 1)}…` : text;

/** A picture of groups, which grows downwards. */
class Graph {
  constructor(groups, room) {
    this.room = room;
    this.live = groups.live.filter(({ state }) => state.chain).slice(0, MOST_LIVE_GROUPS);
    this.dead = groups.dead.slice(0, MOST_DEAD_GROUPS);
    this.liveWidth = boxWidth(this.live);
    this.deadWidth = boxWidth(this.dead);
    const deepest = Math.max(0, ...this.live.map(({ state }) => state.chain.members.length));
    this.gap = [50, 38, 26].find(gap => ROOT_WIDTH + deepest * (OBJECT_WIDTH + gap) + gap + this.liveWidth <= room) ?? 26;
    this.nodes = new Map();
    this.edges = new Map();
    this.back = drawn("g", {});
    this.lines = drawn("g", {});
    this.boxes = drawn("g", {});
    this.width = 0;
    this.bottom = TOP;
  }

  /** Returns the picture. */
  picture() {
    if (this.live.length) this.addLive();
    if (this.dead.length) this.addDead();
    const height = this.bottom + 4;
    const picture = drawn("svg", { "aria-hidden": "true", viewBox: `0 0 ${this.width} ${height}` });
    this.drawEdges();
    this.drawRoot(height);
    for (const node of this.nodes.values()) this.drawNode(node);
    picture.append(this.back, this.lines, this.boxes);
    // It is made smaller to fit. It scrolls instead of being too small to read.
    const scale = Math.max(.74, Math.min(1, this.room / this.width));
    picture.style.width = `${this.width * scale}px`;
    picture.style.height = `${height * scale}px`;
    return picture;
  }

  // ---- live goroutines: a tree of the ways from the roots

  addLive() {
    this.root = this.node("root", { kind: "root" });
    this.groupOf = new Map(this.live.flatMap(group => group.members.map(goroutine => [goroutine.number, group])));
    for (const group of this.live) this.addWay(group);
    this.place(this.root, 1);
    this.root.y = (TOP + this.bottom - ROW_GAP) / 2;
  }

  node(key, made) {
    if (!this.nodes.has(key)) this.nodes.set(key, { key, below: [], ...made });
    return this.nodes.get(key);
  }

  link(from, to, classes) {
    const key = `${from.key}>${to.key}`;
    if (this.edges.has(key)) return;
    this.edges.set(key, { from, to, classes });
    if (to.parent || to === this.root) return;
    to.parent = from;
    from.below.push(to);
  }

  /** Adds the chains of a group, and the group at their end. Where the chains differ, they have one box. */
  addWay(group) {
    let from = this.root;
    group.state.chain.members.forEach((member, at) => {
      const different = new Set(group.chains.map(chain => chain[at])).size;
      const to = different > 1 ? this.severalNode(group, at, member, different) : this.memberNode(member);
      this.link(from, to, member > 0 ? "" : `wakes ${to.group?.state.classes ?? ""}`);
      from = to;
    });
    const end = this.node(`goroutine ${group.members[0].number}`, { kind: "goroutine", group });
    end.group = group;
    this.link(from, end, `wakes ${group.state.classes}`);
  }

  severalNode(group, at, member, number) {
    const kind = member > 0 ? kindOfObject.get(member) ?? "object" : "goroutine", ending = kind.endsWith("x") ? "es" : "s";
    return this.node(`several ${group.members[0].number} ${at}`, { kind: "object", text: `${count(number)} ${kind}${ending}` });
  }

  memberNode(member) {
    if (member > 0) return this.node(`object ${member}`, { kind: "object", text: memberName(member) });
    const group = this.groupOf.get(-member);
    const number = group ? group.members[0].number : -member;
    return this.node(`goroutine ${number}`, { kind: "goroutine", group, text: memberName(member) });
  }

  widthOf(node) {
    if (node.kind === "root") return ROOT_WIDTH;
    return node.kind === "object" ? Math.max(OBJECT_WIDTH, node.text.length * 7.3 + 18) : this.liveWidth;
  }

  /** Places a node at x, in the middle of what comes after it. */
  place(node, x) {
    const height = node.kind === "goroutine" ? GOROUTINE_HEIGHT : OBJECT_HEIGHT, begin = this.bottom;
    node.x = x;
    this.width = Math.max(this.width, x + this.widthOf(node) + 1);
    for (const each of node.below) this.place(each, x + this.widthOf(node) + this.gap);
    node.y = node.below.length ? (node.below[0].y + node.below.at(-1).y) / 2 : begin + height / 2;
    this.bottom = Math.max(this.bottom, begin + height + ROW_GAP);
  }

  // ---- dead goroutines: an island without a way from the roots

  addDead() {
    const left = 1 + ROOT_WIDTH + 52, top = this.bottom + (this.live.length ? 14 : 0);
    const stacks = [...this.stacksOf().values()];
    const inTwo = this.dead.length > 3 && this.room > 760 && stacks.every(stack => stack.groups.length === 1);
    const columns = inTwo ? 2 : 1, cell = OBJECT_WIDTH + 22 + this.gap + this.deadWidth + 34;
    let row = 0;
    stacks.forEach((stack, at) => {
      const column = at % columns;
      this.drawStack(stack, left + column * cell, top + 30 + row * (GOROUTINE_HEIGHT + ROW_GAP));
      if (column === columns - 1 || at === stacks.length - 1) row += stack.groups.length;
    });
    this.bottom = top + 30 + row * (GOROUTINE_HEIGHT + ROW_GAP);
    this.drawIsland(left - 14, top, columns * cell - 6);
  }

  /** Returns the dead groups by the object that they wait on. */
  stacksOf() {
    const stacks = new Map();
    this.dead.forEach((group, at) => {
      const objects = new Set(group.members.map(goroutine => lastObject(goroutine)?.object));
      const object = objects.size === 1 ? [...objects][0] : undefined, key = object ?? `alone ${at}`;
      if (!stacks.has(key)) stacks.set(key, { object, groups: [] });
      stacks.get(key).groups.push(group);
    });
    return stacks;
  }

  drawStack(stack, x, y) {
    const middle = y + (stack.groups.length * (GOROUTINE_HEIGHT + ROW_GAP) - ROW_GAP) / 2, width = OBJECT_WIDTH + 22;
    const lost = drawn("g", { class: "lost" });
    lost.append(drawn("rect", { x, y: middle - OBJECT_HEIGHT / 2, width, height: OBJECT_HEIGHT, rx: 6 }),
      drawn("text", { x: x + width / 2, y: middle + 4, "text-anchor": "middle" }, lostName(stack)));
    this.boxes.append(lost);
    stack.groups.forEach((group, at) => {
      const to = y + at * (GOROUTINE_HEIGHT + ROW_GAP) + GOROUTINE_HEIGHT / 2;
      this.drawEdge(x + width, middle, x + width + this.gap, to, "wakes is-dead", { "stroke-dasharray": "4 4" });
      this.drawGroup(group, x + width + this.gap, to, this.deadWidth);
    });
  }

  drawIsland(x, top, width) {
    const middle = (top + this.bottom) / 2;
    this.back.append(drawn("rect", { class: "island", x, y: top, width, height: this.bottom - top, rx: 10 }),
      drawn("text", { class: "caption", x: x + 14, y: top + 19 }, "nothing live reaches this"));
    const gap = `M${1 + ROOT_WIDTH} ${middle}H${x - 14}`;
    this.lines.append(drawn("path", { class: "edge", d: gap, "stroke-dasharray": "2 3" }),
      drawn("path", { class: "cut", d: `M${x - 25} ${middle - 5}l10 10m0 -10l-10 10` }));
    this.width = Math.max(this.width, x + width + 1);
  }

  // ---- drawing

  drawEdges() {
    for (const { from, to, classes } of this.edges.values()) {
      this.drawEdge(from.x + this.widthOf(from), from === this.root ? to.y : from.y, to.x, to.y, classes, {});
    }
  }

  drawEdge(x1, y1, x2, y2, classes, more) {
    const bend = Math.max(18, (x2 - x1) / 2);
    const d = y1 === y2 ? `M${x1} ${y1}H${x2 - 7}` : `M${x1} ${y1}C${x1 + bend} ${y1} ${x2 - bend} ${y2} ${x2 - 7} ${y2}`;
    this.lines.append(drawn("path", { class: `edge ${classes}`, d, ...more }),
      drawn("path", { class: `tip ${classes}`, d: `M${x2} ${y2}l-8 -4.5v9z` }));
  }

  drawRoot(height) {
    const root = drawn("g", { class: "root" }), middle = (TOP - 6 + height - 4) / 2, name = height > 66 ? "ROOTS" : "R";
    const transform = `translate(${ROOT_WIDTH / 2 + 5} ${middle}) rotate(-90)`;
    root.append(drawn("rect", { x: 1, y: TOP - 6, width: ROOT_WIDTH, height: height - TOP, rx: 8 }),
      drawn("text", { transform, "text-anchor": "middle" }, name));
    this.boxes.prepend(root);
  }

  drawNode(node) {
    if (node.group) this.drawGroup(node.group, node.x, node.y, this.liveWidth);
    if (node.group || node.kind === "root") return;
    const width = this.widthOf(node), height = node.kind === "object" ? OBJECT_HEIGHT : GOROUTINE_HEIGHT;
    const box = drawn("g", { class: "object" });
    box.append(drawn("rect", { x: node.x, y: node.y - height / 2, width, height, rx: 6 }),
      drawn("text", { x: node.x + width / 2, y: node.y + 4, "text-anchor": "middle" }, node.text));
    this.boxes.append(box);
  }

  drawGroup(group, x, y, width) {
    const { state, members } = group, chosen = members.some(goroutine => goroutine.number === selected);
    const name = members.length < 4 && members[0].name ? `${namesOf(members)} ${members[0].name}` : namesOf(members);
    const wait = shortened(`${shortKind(state.kind)}, ${place(state.spot)}`, Math.floor((width - 18) / 5.7));
    const box = drawn("g", { class: `goroutine ${state.classes}${chosen ? " selected" : ""}` });
    box.append(drawn("title", {}, `${namesOf(members)}: ${state.text}`),
      drawn("rect", { x, y: y - GOROUTINE_HEIGHT / 2, width, height: GOROUTINE_HEIGHT, rx: 9 }),
      drawn("text", { class: "first", x: x + 11, y: y - 3 }, shortened(name, Math.floor((width - 20) / 7.3))),
      drawn("text", { class: "small", x: x + 11, y: y + 13 }, wait));
    box.addEventListener("click", () => select(members[0].number));
    this.boxes.append(box);
  }
}

/** Returns the words for what dead goroutines wait on. */
function lostName({ object, groups }) {
  const { kind } = groups[0].state, number = groups[0].members.length;
  if (/nil chan|no cases/.test(kind)) return "nothing";
  if (object) return memberName(object);
  if (number > 1) return `${count(number)} waits`;
  return kind === "select" ? "its channels" : `a ${objectKind(kind)}`;
}

// ---- the reasons

function showWhy(moment, states) {
  const groups = groupsOf(states);
  showGraph(groups);
  $("why-note").textContent = whyNote(moment, groups);
  const items = groups.dead.slice(0, MOST_REASONS).map(deadReason);
  if (groups.live.length) items.push(element("li", "heading", liveHeading(moment, groups.live)));
  items.push(...groups.live.slice(0, MOST_REASONS).map(liveReason));
  const more = Math.max(0, groups.dead.length - MOST_REASONS) + Math.max(0, groups.live.length - MOST_REASONS);
  if (more) items.push(element("li", "empty", `and ${count(more)} more`));
  items.push(...removedReasons(moment), ...dividedNote(moment));
  const empty = moment === 0 ? "Nothing has run yet." : "No goroutine is blocked at this moment.";
  if (!items.length) items.push(element("li", "empty", empty));
  $("reasons").replaceChildren(...items);
}

function showGraph(groups) {
  const graph = new Graph(groups, $("reasons").clientWidth), nobody = !graph.live.length && !graph.dead.length;
  $("graph").hidden = nobody;
  $("graph").replaceChildren(...nobody ? [] : [graph.picture()]);
}

/** Says how many goroutines are blocked, and after which turn their chains were seen. */
function whyNote(moment, groups) {
  const number = list => list.reduce((sum, group) => sum + group.members.length, 0);
  const live = number(groups.live), dead = number(groups.dead);
  const name = data.asleep && moment === last ? "asleep" : "blocked and live";
  const parts = [live ? `${count(live)} ${name}` : "", dead ? `${count(dead)} dead` : "", seenNote(moment, groups)];
  return parts.filter(Boolean).join(", ");
}

function liveHeading(moment, live) {
  if (!data.asleep || moment < last) return "Live, since a root reaches what they wait on:";
  if (!live.some(({ state }) => state.chain)) return "All goroutines are asleep.";
  return "All goroutines are asleep. A chain is what reached a goroutine before the last one blocked.";
}

/** Says after which turn the chains were seen, if it is not this moment. */
function seenNote(moment, groups) {
  const seen = groups.live.map(group => group.state.chain?.moment).filter(each => each !== undefined && each !== moment);
  return seen.length ? `as after turn ${count(Math.max(...seen))}` : "";
}

/** Returns an item of the list with the names of goroutines, and its paragraph. */
function reason(members, classes) {
  const chosen = members.some(goroutine => goroutine.number === selected);
  const item = element("li", classes + (chosen ? " selected" : "")), button = element("button", "g", namesOf(members));
  const text = element("p");
  button.dataset.g = members[0].number;
  button.addEventListener("click", () => select(members[0].number));
  if (members.length > 3) button.title = members.slice(0, 200).map(goroutine => `G${goroutine.number}`).join(" ");
  item.append(button, text);
  return [item, text];
}

function deadReason({ state, members }) {
  const [item, text] = reason(members, state.classes), goroutine = members[0], one = members.length === 1;
  const seen = lastObject(goroutine);
  const deaths = members.map(each => each.dead), first = Math.min(...deaths), end = Math.max(...deaths);
  const wait = seen && `At turn ${count(seen.moment)}, when it was live, it waited on ${memberName(seen.object)}.`;
  const since = first === end ? `turn ${count(first)}` : `turns ${count(first)} to ${count(end)}`;
  text.append(element("span", "what", `${state.kind} at ${place(state.spot)}`),
    `: nothing live reaches what ${one ? "it waits" : "they wait"} on. ${one && wait ? `${wait} ` : ""}`
    + `Started at ${place(goroutine.started)}. Dead since ${since}`
    + `${data.looks === null ? "" : " at the latest"}; ${reportOf(goroutine, one)}.`);
  return item;
}

function reportOf(goroutine, one) {
  if (goroutine.reported === Infinity) return "no collection of this run reports " + (one ? "it" : "them");
  const by = `collection ${count(goroutine.reportedBy)}`, when = `after turn ${count(goroutine.reported)}`;
  return goroutine.reported <= now ? `reported by ${by} ${when}` : `${by} will report ${one ? "it" : "them"} ${when}`;
}

function liveReason({ state, members }) {
  const [item, text] = reason(members, `live ${state.classes}`), goroutine = members[0];
  text.append(element("span", "what", `${state.kind} at ${place(state.spot)}`));
  if (state.name === "asleep") text.append(element("span", "", `since turn ${count(state.wait.begin)}`));
  if (members.length > 1) text.append(element("span", "", `G${goroutine.number} by`));
  if (state.chain) text.append(chainOf(state.chain.members, goroutine, state));
  else if (state.name !== "asleep") text.append(element("span", "", "no collection came during this wait"));
  return item;
}

function chainOf(members, goroutine, state) {
  const chain = element("div", "chain");
  chain.append(element("span", "root", "root"));
  for (const member of members) {
    const waiter = member > 0 ? undefined : byNumber.get(-member);
    chain.append(element("span", waiter ? `woken ${stateOf(waiter, now).classes}` : "", memberName(member)));
  }
  chain.append(element("span", `woken ${state.classes}`, `G${goroutine.number}`));
  return chain;
}

/** Returns the items of goroutines that collections have taken back. */
function removedReasons(moment) {
  const groups = new Map();
  for (const goroutine of goroutines.filter(each => each.removed <= moment)) {
    const { kind, spot } = goroutine.waits.at(-1), key = `${goroutine.removedBy} ${kind} ${spot} ${goroutine.started}`;
    groups.set(key, [...groups.get(key) ?? [], goroutine]);
  }
  return [...groups.values()].slice(0, MOST_REASONS).map(members => {
    const [item, text] = reason(members, ""), goroutine = members[0], { kind, spot } = goroutine.waits.at(-1);
    text.textContent = `Taken back by collection ${count(goroutine.removedBy)} after turn ${count(goroutine.removed)}. `
      + `Dead before in ${kind} at ${place(spot)}, started at ${place(goroutine.started)}.`;
    return item;
  });
}

/** Says which collections took back a part of the dead. */
function dividedNote(moment) {
  const numbers = data.divided.filter(number => (turnOfCollection.get(number) ?? Infinity) <= moment);
  if (!numbers.length) return [];
  const words = `Collection ${count(numbers.at(-1))} took some of the dead back and kept others.`;
  return [element("li", "heading", `${words} The program does not tell which.`)];
}

// The view of actors: the map, and the table that sorts and filters, of which the rows in sight alone are here.

import { button, h, many, plural, put, setText, short } from "./dom.js";
import { at, image, see } from "./image.js";
import { Inspector } from "./inspector.js";
import { ActorMap, STATES } from "./map.js";

const HIGH = 25, MORE = 8, MOST = 200;
const ONLY = { all: "all", turn: "in a turn", waits: "waiting", fault: "faults", closed: "closed" };
const CHIPS = { turn: "running", waits: "waiting", idle: "idle", fresh: "new", fault: "fault", closed: "closed" };
const COLUMNS = [["", "actor"], ["class", "class"], ["state", "state"], [null, "last turn"], ["waiting", "mailbox"],
  ["rate", "turns/s", "num"], ["turns", "turns", "num"]];

const map = new ActorMap(n => choose(n));
const inspector = new Inspector();
const input = h("input", { type: "search", placeholder: "class or number", "aria-label": "Filter of actors",
  oninput: () => filtered({ text: input.value.trim() }), id: "actor-filter" });
const only = h("span", { of: "seg", role: "group", "aria-label": "Which actors" },
  Object.entries(ONLY).map(([key, name]) => button("", name, () => filtered({ only: key }), { "data-only": key })));
const legend = h("div", { of: "legend", style: { "margin-top": "7px" } });
const heads = h("div", { of: "arow ahead", role: "row" },
  COLUMNS.map(([key, name, of]) => h("span", { of: of || "", role: "columnheader", "data-sort": key ?? "none" },
  key === null ? name : button("", name, () => sorted(key)))));
const rows = h("div", { of: "rows", role: "rowgroup", style: { position: "relative" } });
const scroll = h("div", { of: "scroll", tabindex: "0", id: "actor-rows", onscroll: () => scrolled(), onkeydown: event => pressed(event),
  "aria-label": "Actors; the arrow keys choose one" }, rows);
const table = h("div", { role: "table", "aria-label": "Actors", style: { display: "contents" } }, heads, scroll);
const shown = h("span", { of: "count" });
const left = h("section", { of: "pane", "aria-label": "Actors" }, h("header", {}, h("h2", {}, "Actors"), input, shown, only),
  h("div", { of: "sect" }, map.canvas, legend), table);
rows.addEventListener("click", event => { const it = event.target.closest(".arow"); if (it) choose(it.actor); });

let pool = [], last = null, asking = false, again = false;

function filtered(what) {
  Object.assign(at.table, what, { first: 0 });
  scroll.scrollTop = 0;
  head();
  ask();
}

function sorted(key) {
  if (at.table.sort === key) at.table.down = !at.table.down;
  else Object.assign(at.table, { sort: key, down: ["state", "waiting", "rate", "turns"].includes(key) });
  head();
  ask();
}

function head() {
  for (const it of only.children) it.setAttribute("aria-pressed", String(it.dataset.only === at.table.only));
  for (const it of heads.children) {
    const isIt = it.dataset.sort === at.table.sort;
    if (it.dataset.sort === "none") continue;
    it.setAttribute("aria-sort", isIt ? (at.table.down ? "descending" : "ascending") : "none");
    const name = COLUMNS.find(([key]) => key === it.dataset.sort)[1];
    setText(it.firstChild, name + (isIt && (at.table.sort || at.table.down) ? (at.table.down ? " ▾" : " ▴") : ""));
  }
  if (input.value !== at.table.text) input.value = at.table.text;
}

// The rows that are in sight, and a few more.
function scrolled() {
  const first = Math.max(0, Math.floor(scroll.scrollTop / HIGH) - MORE),
    count = Math.min(MOST, Math.ceil(scroll.clientHeight / HIGH) + 2 * MORE);
  if (first === at.table.first && count === at.table.count) return;
  Object.assign(at.table, { first, count });
  ask();
}

// One question at a time; what came meanwhile is asked behind it.
async function ask() {
  if (asking) { again = true; return; }
  asking = true;
  const told = await see();
  asking = false;
  if (told) tell(told);
  if (again) { again = false; ask(); }
}

export function choose(actor, object = 0) {
  if (actor !== at.actor) at.back = [...at.back, [at.actor, at.object]].filter(([it]) => it !== null).slice(-50);
  Object.assign(at, { actor, object, failure: null });
  draw();
  inspector.begin();
  ask();
}

function pressed(event) {
  const step = { ArrowDown: 1, ArrowUp: -1, PageDown: 15, PageUp: -15 }[event.key];
  if (!step || !last) return;
  event.preventDefault();
  const here = last.rows.findIndex(it => it.actor === at.actor),
    to = here < 0 ? 0 : Math.max(0, Math.min(last.rows.length - 1, here + step));
  if (!last.rows[to]) return;
  choose(last.rows[to].actor);
  const place = (last.first + to) * HIGH;
  if (place < scroll.scrollTop) scroll.scrollTop = place;
  if (place + HIGH > scroll.scrollTop + scroll.clientHeight) scroll.scrollTop = place + HIGH - scroll.clientHeight;
}

function cellsOf() {
  const it = {
    actor: h("span", { of: "dim", role: "cell" }), class: h("span", { of: "cut", role: "cell" }), chip: h("span", { of: "chip" }),
      last: h("span", { of: "cut", role: "cell" }),
    bar: h("i"), waiting: h("span"), rate: h("span", { of: "num", role: "cell" }), turns: h("span", { of: "num dim", role: "cell" }),
  };
  it.root = h("div", { of: "arow", role: "row" }, it.actor, it.class, h("span", { role: "cell" }, it.chip), it.last,
    h("span", { of: "box", role: "cell" }, h("span", { of: "bar" }, it.bar), it.waiting), it.rate, it.turns);
  return it;
}

const LAST = { runs: ["cut code", text => text], answer: ["cut dim code", text => `answered ${text}`],
  fault: ["cut", text => `✕ fault ${text}`], none: ["cut faint", text => text] };

function draw() {
  if (!last) return;
  while (pool.length < last.rows.length) { const it = cellsOf(); pool.push(it); rows.append(it.root); }
  pool.forEach((it, n) => {
    const row = last.rows[n];
    it.root.hidden = !row;
    it.root.style.display = row ? "" : "none";
    if (!row) return;
    it.root.actor = row.actor;
    it.root.style.top = `${(last.first + n) * HIGH}px`;
    it.root.classList.toggle("on", row.actor === at.actor);
    it.root.setAttribute("aria-rowindex", last.first + n + 2);
    it.root.setAttribute("aria-selected", String(row.actor === at.actor));
    setText(it.actor, String(row.actor));
    setText(it.class, row.class);
    setText(it.chip, CHIPS[row.state] + (row.open || row.state === "closed" ? "" : ", closed"));
    it.chip.className = `chip ${row.state}`;
    const [[kind, text]] = Object.entries(row.last);
    it.last.className = LAST[kind][0];
    setText(it.last, LAST[kind][1](text));
    it.last.title = text;
    it.bar.style.width = `${Math.min(100, (100 * Number(row.waiting)) / 64)}%`;
    it.bar.style.background = Number(row.waiting) > 48 ? "var(--red)" : "";
    setText(it.waiting, short(Number(row.waiting)));
    it.waiting.className = Number(row.waiting) ? "" : "faint";
    setText(it.rate, row.rate ? short(row.rate) : "0");
    it.rate.className = `num${row.rate ? "" : " faint"}`;
    setText(it.turns, many(row.turns));
  });
}

// Shows the view.
export function show(main) {
  put(main, left, inspector.root);
  at.cells = map.room;
  at.table.count = Math.min(MOST, Math.ceil((scroll.clientHeight || 600) / HIGH) + 2 * MORE);
  head();
  inspector.begin();
  ask().then(() => { if (at.actor !== null && !at.table.sort && !at.table.down && at.table.only === "all"
    && !at.table.text) scroll.scrollTop = Math.max(0, at.actor - 4) * HIGH; });
}

// What an event tells, or the answer to what is in sight now.
export function tell(event) {
  if (event.table) {
    last = event.table;
    rows.style.height = `${last.there * HIGH}px`;
    table.setAttribute("aria-rowcount", last.there + 1);
    setText(shown, `${many(last.there)}`);
    draw();
  }
  if (event.map !== undefined) {
    map.tell(event.map, event.each, at.actor, event.counts);
    put(legend, Object.entries(STATES).map(([key, [name, tint]]) => h("span", {},
      h("i", { of: "cell", style: { background: `var(${tint})` } }), `${name} ${many(event.counts[key] || 0)}`)),
      event.each > 1 && h("span", { of: "faint" }, `a cell is ${plural(event.each, "actor")}, the most urgent in sight`));
  }
  if (event.inspected && event.inspected.actor === at.actor) inspector.tell(event.inspected);
  if (event.faults) inspector.tellFaults();
}

export const recolour = () => map.draw();

export const resized = () => { map.draw(); at.cells = map.room; scrolled(); };

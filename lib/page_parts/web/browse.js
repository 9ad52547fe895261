// The view of classes and methods: lists side by side, and the source.

import { change, look } from "./ask.js";
import { button, h, put, toast } from "./dom.js";
import { drafts, hasDraft } from "./drafts.js";
import { at, go, image, selectors, slotsOf } from "./image.js";
import { oneStop, walkable } from "./lists.js";
import { MethodPane } from "./method.js";
import { shapes } from "./shapes.js";
import { ClassTree } from "./tree.js";

const tree = new ClassTree();
export const pane = new MethodPane();
pane.drafted = () => list();
const SIDES = { own: "own", all: "all", gone: "gone" };

let told = {}, gone = [];
const sides = h("span", { of: "seg", role: "group", "aria-label": "Which methods" }, Object.keys(SIDES).map(it =>
  button("", SIDES[it], () => { at.side = it; list(); },
    { "data-side": it, title: { own: "those of the class itself", all: "those that it inherits too",
    gone: "those that were removed" }[it] })));
const definition = h("div", { of: "definition" });
const box = h("div", { role: "listbox", "aria-label": "Methods" });
const scroll = h("div", { of: "scroll" }, box);
const actorsOf = h("div", { of: "tools" });
const middle = h("section", { of: "pane methods", "aria-label": "Methods" },
  h("header", {}, h("h2", { of: "grow" }, "Methods"), sides,
    button("plain changes", "+", () => fresh(), { title: "Writes a new method", "aria-label": "New method", id: "new-method" })),
  definition, scroll, actorsOf);
walkable(box, it => (it.dataset.text ? choose(it.dataset.text, it.dataset.from) : fresh()));

// Opens the method that a row is of: that of the class itself, also if it is gone, or the one that it has from another class.
function choose(selector, from) {
  if (selector === at.selector && from === at.from && pane.shows(from, selector)) return;
  Object.assign(at, { selector, from });
  mark();
  pane.open(at.class, selector, from);
}

// A new method of the class in sight.
export function fresh() {
  at.selector = null;
  mark();
  pane.open(at.class, null);
  pane.editor.field.focus();
}

export async function list() {
  const isIn = box.contains(document.activeElement), it = image.classes.get(at.class);
  for (const each of sides.children) each.setAttribute("aria-pressed", String(each.dataset.side === at.side));
  if (at.side === "gone") {
    const name = at.class, found = (await look("gone", { class: name })).ok || [];
    if (name !== at.class || at.side !== "gone") return;
    gone = found;
  }
  const removed = gone.map(selector => ({ selector, from: at.class }));
  const rows = withDrafts(at.side === "gone" ? removed : selectors(at.class, at.side === "all"));
  if (hasDraft(at.class, "")) rows.unshift({ selector: "", from: at.class });
  put(box, rows.length ? rows.map(row) : h("div", { of: "nothing" },
    at.side === "gone" ? "None was removed." : it?.isKernel
    ? "The kernel's methods of this class have no source." : image.isFile ? "It has none of its own." : "No method yet: + writes one."));
  drawDefinition();
  mark();
  if (isIn) box.querySelector("[aria-selected=true]")?.focus();
}

// A method of which there is a draft stays in the list, also where somebody else has removed it.
function withDrafts(rows) {
  const own = image.classes.get(at.class)?.methods, removed = drafts(at.class).filter(it => !own?.has(it));
  return [...rows.filter(it => !removed.includes(it.selector)), ...removed.map(selector => ({ selector, from: at.class, isRemoved: true }))]
    .sort((a, b) => (a.selector < b.selector ? -1 : a.selector > b.selector ? 1 : 0));
}

function row({ selector, from, isKernel, isRemoved }) {
  const isOwn = from === at.class;
  return h("div", { of: `item${isOwn && !isKernel ? "" : " kernel"}`, role: "option", "data-text": selector, "data-from": from },
    h("span", { of: "grow code cut" }, selector || h("i", {}, "new method")),
      isRemoved && h("span", { of: "chip fault", title: "removed by somebody else; what you typed is still here" }, "removed"),
      hasDraft(from, selector) && h("span", { of: "chip changed", title: "typed, not installed" }, "●"),
    !isOwn && h("span", { of: "count" }, from), isKernel && isOwn && h("span", { of: "count" }, "kernel"),
      h("span", { of: "at", "data-of": `${from} ${selector}` }));
}

function drawDefinition() {
  const it = image.classes.get(at.class);
  if (!it) return put(definition);
  const slots = slotsOf(at.class), from = slots.map(each => `${each.slot} of ${each.from}`).join("\n");
  put(definition,
    h("div", { of: "code" }, h("span", { of: "C" }, it.name),
      it.above && [h("span", { of: "faint" }, " : "),
      button("link", it.above, () => go("browse", { class: it.above, selector: undefined }))]),
    h("div", { of: "code dim", title: from || "no instance variables" },
      slots.length ? `| ${slots.map(each => each.slot).join(" ")} |` : "| |"));
  put(actorsOf, button("link", "its actors", () => go("actors", { table: { ...at.table, text: at.class, first: 0, only: "all" } })),
    !it.isKernel || it.name === "Object" ? button("plain changes", "New actor", newActor, { title: `Makes an actor of ${it.name}` }) : "");
}

async function newActor() {
  const reply = await change("actor", { class: at.class });
  if (reply.error) toast(reply.said, "bad");
  else toast(`actor ${reply.ok.actor}, ${at.class}`, "",
    button("link", "inspect it", () => go("actors", { actor: reply.ok.actor, object: 0 })));
}

const isInSight = it => Boolean(it) && it.dataset.text === (at.selector ?? "") && it.dataset.from === (at.from ?? at.class);

function mark() {
  for (const it of box.querySelectorAll("[role=option]")) it.setAttribute("aria-selected", String(isInSight(it)));
  oneStop(box);
  box.querySelector("[aria-selected=true]")?.scrollIntoView({ block: "nearest" });
  drawShapes();
}

function drawShapes() {
  for (const it of box.querySelectorAll(".at")) {
    const kinds = told[it.dataset.of];
    if (!kinds || it.kinds === kinds.join()) continue;
    it.kinds = kinds.join();
    put(it, kinds.length ? shapes(kinds) : "");
  }
}

// Shows the view. Without a selector the first method is opened.
export function show(main) {
  // What has the focus keeps it while one goes from class to class.
  if (tree.root.parentNode !== main) { put(main, tree.root, middle, pane.root); tree.draw(); }
  tree.select();
  if (at.selector === undefined) at.from = undefined;
  if (at.selector === undefined) at.selector = selectors(at.class, false).find(it => !it.isKernel)?.selector ?? selectors(at.class,
    false)[0]?.selector ?? null;
  list();
  if (at.selector !== null) pane.open(at.class, at.selector, at.from);
  else if (pane.told === null || pane.told.class !== at.class || !pane.told.isNew) pane.open(at.class, null);
  else pane.draw();
}

// What an event tells, with whether classes have changed.
export function tell(event, isChanged) {
  if (isChanged) { tree.draw(); list(); }
  else if (!isInSight(box.querySelector("[aria-selected=true]"))) mark();
  if (event.heat) tree.warm();
  if (event.shapes) { told = event.shapes; drawShapes(); }
  pane.tell(event);
}

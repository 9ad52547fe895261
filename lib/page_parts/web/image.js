// What is known of the image here, and what one sees of it. Views read these, and tell others by `go`.

import { look, mine } from "./ask.js";

// Whether it is a file; the classes by their names, in the order of their numbers; the figures and the curves; the edits that were seen; the
// newest faults.
export const image = { classes: new Map(), heat: {}, figures: null, points: [], edits: [], version: 0, state: "lost", asOf: null,
  epoch: null, isFile: false, faults: { count: null, names: {}, all: [] } };

// What is in sight. `from` is the class whose own the method is, where that is not the class in sight; `object` is the place of an object of
// the actor's own, `failure` a turn of it that failed, `place` one in a source that the editor is to show, and `back` where one came from.
export const at = {
  view: "browse", class: "Object", selector: undefined, from: undefined, side: "own", tab: "sites",
  actor: null, object: 0, failure: null, place: null, back: [],
  table: { first: 0, count: 40, sort: "", down: false, only: "all", text: "" }, cells: 2000,
};

let window_ = null;
export const setWindow = number => { window_ = number; };

// What the server is to tell of: as much as is in sight.
export function view() {
  const found = { view: at.view };
  if (at.view === "browse") Object.assign(found, { class: at.class, method: at.shown || null });
  if (at.view === "actors") Object.assign(found, { table: at.table, cells: at.cells, actor: at.actor, object: at.object });
  return found;
}

// Tells the server what is in sight now, and gives what it says of that at once.
export async function see() {
  if (window_ === null) return null;
  const told = await look("see", { window: window_, view: view() });
  return told.ok || null;
}

// Takes what an event tells of classes and numbers. Gives whether classes have changed.
export function take(event) {
  const isOther = event.allClasses && event.epoch !== image.epoch;
  Object.assign(image, { state: event.state, said: event.said, asOf: event.asOf ?? image.asOf, epoch: event.epoch });
  if (event.figures) image.figures = event.figures;
  if (event.isAnew) Object.assign(image, { points: [], faults: { count: null, names: {}, all: [] } });
  if (event.faults) image.faults = event.faults;
  if (event.points) image.points = [...image.points, ...event.points].slice(-600);
  if (event.edits?.length) image.edits = [...image.edits, ...event.edits].slice(-200);
  if (event.version !== undefined) image.version = event.version;
  if (event.allClasses || event.isAnew) image.heat = {};
  // Another image counts its versions anew.
  if (isOther) mine.clear();
  if (event.heat) image.heat = { ...image.heat, ...event.heat };
  if (!event.classes) return false;
  if (event.allClasses) image.classes = new Map();
  for (const it of event.classes) {
    image.classes.set(it.name, { ...it, methods: new Map(it.methods) });
  }
  return true;
}

export const chain = name => {
  const found = [];
  for (let it = image.classes.get(name); it; it = image.classes.get(it.above)) found.push(it);
  return found;
};

// The version of a class's own method, and 0 where it has none; and the class whose method a send to an object of a class runs.
export const versionOf = (name, selector) => image.classes.get(name)?.methods.get(selector) || 0;
export const holder = (name, selector) => chain(name).find(it => it.methods.has(selector) || it.kernel.includes(selector))?.name ?? null;

// The classes that have a selector, in the order of their numbers, as the events have told them; and whether the newest edit of one was
// made in this window.
export const implementors = selector => [...image.classes.values()].filter(it => it.methods.has(selector) || it.kernel.includes(selector))
  .map(it => ({ class: it.name, isKernel: !it.methods.has(selector) }));
export const isMine = selector => mine.has(image.edits.filter(it => it.selector === selector).at(-1)?.version);

export const slotsOf = name => chain(name).reverse().flatMap(it => it.slots.map(slot => ({ slot, from: it.name })));
export const below = name => [...image.classes.values()].filter(it => it.above === name);

// The selectors of a class in the order of the alphabet; with `all` those above it too, each with the class that has it.
export function selectors(name, all) {
  const found = new Map();
  for (const it of all ? chain(name) : chain(name).slice(0, 1)) {
    for (const selector of [...it.methods.keys()]) if (!found.has(selector)) found.set(selector,
      { selector, from: it.name, isKernel: false });
    if (all || it.isKernel) for (const selector of it.kernel) if (!found.has(selector)) found.set(selector,
      { selector, from: it.name, isKernel: true });
  }
  return [...found.values()].sort((a, b) => (a.selector < b.selector ? -1 : a.selector > b.selector ? 1 : 0));
}

// Views are shown by name; main.js says how.
const shown = {};
export const showsView = (name, how) => { shown[name] = how; };

// Goes to a view, with what is to be in sight there.
export function go(name, what = {}) {
  Object.assign(at, "selector" in what ? { from: undefined, ...what } : what);
  at.view = name;
  shown.all();
}

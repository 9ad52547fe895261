// One field that finds classes, methods and actors, with the senders and implementors of what is written there.

import { look } from "./ask.js";
import { $, h, put } from "./dom.js";
import { at, go, image, selectors } from "./image.js";

const MOST = 14;
let rows = [], chosen = 0, asked = "";

// Opens the field with a text in it.
export function find(text = "") {
  const palette = $("#palette");
  const input = h("input", { placeholder: "Class, method, sender, actor…", spellcheck: "false", autocomplete: "off", role: "combobox",
    "aria-expanded": "true", "aria-controls": "found", "aria-label": "Find a class, a method, a sender or an actor",
    oninput: () => search(input.value), onkeydown: event => pressed(event) });
  put(palette, input, h("div", { id: "found", role: "listbox", "aria-label": "Found" }));
  palette.onclick = event => { if (event.target === palette) palette.close(); };
  input.value = text;
  palette.showModal();
  input.select();
  search(text);
}

function pressed(event) {
  const step = { ArrowDown: 1, ArrowUp: -1 }[event.key];
  if (step && rows.length) { event.preventDefault(); chosen = (chosen + step + rows.length) % rows.length; draw(); }
  else if (event.key === "Enter" && rows[chosen]) { event.preventDefault(); take(rows[chosen]); }
}

function take(row) {
  $("#palette").close();
  row.go();
}

async function search(given) {
  const text = given.trim(), small = text.toLowerCase();
  asked = given;
  rows = here(text, small);
  chosen = 0;
  draw();
  if (!/^([A-Za-z][A-Za-z0-9]*|([A-Za-z][A-Za-z0-9]*:)+|[-+*/\\<>=~&,]{1,2})$/.test(text)) return;
  const senders = await look("senders", { selector: text });
  if (asked !== given || !senders.ok?.length) return;
  rows = [...rows, ...senders.ok.map(it => method(it.class, it.selector, it.posts ? "posts it" : "sender"))].slice(0, 2 * MOST);
  draw();
}

const method = (name, selector, kind) => ({ text: `${name} › ${selector}`, kind, go: () => go("browse", { class: name, selector }) });

// A class and the beginning of a selector, as  Account>>w : methods of its own come before those that it inherits.
function ofClass(name, begin) {
  const small = name.toLowerCase(), rank = it => (it.name.toLowerCase() === small ? 0 : it.name.toLowerCase().startsWith(small) ? 1 : 2);
  const classes = [...image.classes.values()].filter(it => rank(it) < 2).sort((a, b) => rank(a) - rank(b));
  const found = classes.flatMap(it => selectors(it.name, true).filter(each => each.selector.toLowerCase().startsWith(begin.toLowerCase()))
    .map(each => ({ ...each, of: it.name, isInherited: each.from !== it.name, rank: rank(it) })));
  return found.sort((a, b) => a.rank - b.rank || a.isInherited - b.isInherited).slice(0, 2 * MOST)
    .map(it => method(it.isInherited ? it.from : it.of, it.selector, it.isInherited ? `of ${it.of}, inherited` : "method"));
}

// What is found without asking: the best first.
function here(text, small) {
  const both = /^([A-Za-z][A-Za-z0-9]*)\s*(?:>>|›)\s*(\S*)$/.exec(text);
  if (both) return ofClass(both[1], both[2]);
  const found = [], actor = text.match(/^(?:actor\s*)?(\d+)$/i);
  const add = (rank, it) => found.push({ rank, ...it });
  if (actor && Number(actor[1]) < (image.figures?.actors ?? 0)) add(0,
    { text: `actor ${Number(actor[1])}`, kind: "actor", go: () => go("actors", { actor: Number(actor[1]), object: 0 }) });
  for (const it of image.classes.values()) {
    const name = it.name.toLowerCase();
    if (name.includes(small)) add(name === small ? 0 : name.startsWith(small) ? 2 : 4,
      { text: it.name, kind: "class", go: () => go("browse", { class: it.name, selector: undefined }) });
    if (!small) continue;
    for (const selector of [...it.methods.keys(), ...it.kernel]) {
      const own = selector.toLowerCase(), whole = `${it.name} › ${selector}`.toLowerCase();
      if (own.includes(small) || whole.includes(small) || `${it.name} ${selector}`.toLowerCase().includes(small)) add(own === small
        ? 1 : own.startsWith(small) ? 3 : 5, method(it.name, selector, "implementor"));
    }
  }
  if (small && image.classes.has(text)) add(3,
    { text: `actors of ${text}`, kind: "actors", go: () => go("actors", { table: { ...at.table, text, first: 0, only: "all" } }) });
  return found.sort((a, b) => a.rank - b.rank || (a.text < b.text ? -1 : 1)).slice(0, MOST);
}

function draw() {
  put($("#found"), rows.length ? rows.map((it, n) => h("div",
    { of: "item", role: "option", id: `found-${n}`, "aria-selected": String(n === chosen), onclick: () => take(it) },
    h("span", { of: "grow code cut" }, it.text), h("span", { of: "count" }, it.kind))) : h("div", { of: "nothing" },
      "Nothing is named so."));
  $("#palette input").setAttribute("aria-activedescendant", rows.length ? `found-${chosen}` : "");
  $(`#found-${chosen}`)?.scrollIntoView({ block: "nearest" });
}


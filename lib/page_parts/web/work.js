// The workspace: what is typed, with its answers and faults as they come.

import { look, type } from "./ask.js";
import { $, button, h, put } from "./dom.js";
import { showFault } from "./faults.js";
import { go } from "./image.js";
import { tokens } from "./source.js";

const WORDS = { waits: "waits for the entry before", runs: "runs", broken: "has not begun: the entry before was broken off" };
const KEPT = "actorimage-typed";
// Words that are shown, and lines above which an answer has the whole width.
const MOST_SHOWN = 60, LONG = 5;
let cards = new Map(), typed = [], place = 0, waits = null, leaves = false;

const field = h("textarea", { rows: "1", spellcheck: "false", autocapitalize: "off", autocomplete: "off", id: "entry",
  "aria-label": "Type Smalltalk here",
  placeholder: "c := Counter actor. c bump", onkeydown: event => pressed(event),
    oninput: () => { grow(); offer([]); leaves = false; sessionStorage.setItem(KEPT, field.value); },
    onblur: () => { leaves = false; } });
const offers = h("div", { id: "offers", role: "status", "aria-label": "What it may become", hidden: true });
const list = h("div", { id: "cards", role: "log", "aria-label": "What was typed and answered", tabindex: "0" });
const names = h("div", { id: "names", "aria-label": "Names" });
const stops = button("plain", "Break off", () => { field.focus(); breakOff(); },
  { title: "Stops waiting for the entry that goes on; those behind it come back into the field", hidden: true, id: "break" });

const folds = button("", "▾", () => fold(!$("#work").classList.contains("folded")),
  { title: "Folds the workspace to one line", "aria-label": "Fold the workspace", id: "fold" });

function fold(isFolded) {
  $("#work").classList.toggle("folded", isFolded);
  folds.textContent = isFolded ? "▴" : "▾";
  folds.setAttribute("aria-expanded", String(!isFolded));
  dispatchEvent(new Event("resize"));
}

export function workspace() {
  put($("#work"), h("header", {}, h("h2", {}, "Workspace"),
    h("span", { of: "faint grow cut" },
      "what is typed is Smalltalk, as in bin/workspace; Tab completes; :help lists more; Shift+Enter begins a line"),
    stops, h("kbd", {}, "Ctrl `"), folds),
    list, names, offers, h("div", { id: "typed" }, h("span", { of: "faint code", "aria-hidden": "true" }, "›"), field));
  field.value = sessionStorage.getItem(KEPT) || "";
  grow();
}

// Puts the beginning of an entry into the field.
export function prefill(text) {
  write(text);
  field.focus();
  field.setSelectionRange(text.length, text.length);
}

export const focusWork = () => field.focus();

function grow() {
  field.style.height = "21px";
  field.style.height = `${Math.min(110, field.scrollHeight)}px`;
}

// Words that what stands before the cursor may become.
function offer(words) {
  offers.hidden = !words.length;
  put(offers, words.slice(0, MOST_SHOWN).map(it => h("span", { of: "code" }, it)),
    words.length > MOST_SHOWN && h("span", { of: "faint" }, `and ${words.length - MOST_SHOWN} more`));
}

// Puts behind the cursor what all words begin with that fit, and shows them if there are several.
async function complete() {
  const end = field.selectionStart, text = field.value, reply = await look("complete", { before: text.slice(0, end) });
  if (reply.error || field.value !== text || field.selectionStart !== end) return;
  const { word, found } = reply.ok;
  let all = found[0] ?? word;
  for (const it of found) while (!it.startsWith(all)) all = all.slice(0, -1);
  if (all.length > word.length) document.execCommand("insertText", false, all.slice(word.length));
  offer(found.length === 1 ? [] : found.length ? found : ["nothing is named so"]);
}

// Tab completes behind a text; in an empty field, and behind Escape, it goes on to what comes next.
function takesTab(event) {
  const isTab = event.key === "Tab" && !event.shiftKey && !event.ctrlKey && !event.altKey && !event.metaKey;
  return isTab && !leaves && field.selectionStart === field.selectionEnd && field.value.slice(0, field.selectionStart).trim();
}

function pressed(event) {
  if (takesTab(event)) {
    event.preventDefault();
    complete();
  } else if (event.key === "Escape") {
    offer([]);
    leaves = true;
  } else if (event.key === "Enter" && !event.shiftKey) {
    event.preventDefault();
    send();
  } else if ((event.key === "ArrowUp" && !field.value.slice(0, field.selectionStart).includes("\n"))
    || (event.key === "ArrowDown" && !field.value.slice(field.selectionStart).includes("\n"))) {
    const to = place + (event.key === "ArrowUp" ? -1 : 1);
    if (to < 0 || to > typed.length) return;
    event.preventDefault();
    place = to;
    prefill(typed[place] ?? "");
  } else if (event.key === "c" && event.ctrlKey && field.selectionStart === field.selectionEnd && !stops.hidden) {
    breakOff();
  }
}

// What has not begun comes back into the field, before what is typed there. An empty line ends a method.
async function breakOff() {
  const reply = await type({ break: true });
  if (reply.error) { refused(reply.said); return; }
  if (reply.ok.length) prefill([...reply.ok, field.value].filter(it => it.trim()).join("\n\n"));
}

async function send() {
  const text = field.value;
  if (!text.trim()) return;
  typed = [...typed, text];
  place = typed.length;
  offer([]);
  write("");
  const reply = await type({ text });
  if (reply.error) { refused(reply.said); write(text + field.value); }
  list.scrollTop = list.scrollHeight;
}

function write(text) {
  field.value = text;
  sessionStorage.setItem(KEPT, text);
  grow();
}

// What was typed stays in the field where it was not taken.
function refused(said) {
  list.append(h("div", { of: "card" }, h("span"), h("span"), h("pre", { of: "said lost" }, said)));
  list.scrollTop = list.scrollHeight;
}

const coloured = text => tokens(text).map(it => h("span", { of: it.of }, it.text));

function card(it) {
  const state = h("span", { of: "dim" }),
    why = it.why.length > 0 && button("link", "where", () => { what.hidden ^= true; what.scrollIntoView({ block: "nearest" }); });
  const what = why && h("pre", { of: "why", hidden: true }, it.why.join("\n"));
  const said = h("pre", { of: `said ${it.state}` }, it.state === "runs" && h("span", { of: "spin", "aria-hidden": "true" }),
    it.state === "fault" && "✕ ", it.lines.join("\n"), state);
  const [, turn, number] = /^fault \w+ in turn (\d+) of actor (\d+)$/m.exec(it.lines.join("\n")) || [];
  const of = number && button("link", `inspect actor ${number}`, () => showFault({ actor: Number(number), turn, epoch: it.epoch }));
  if (WORDS[it.state]) state.textContent = `${it.lines.length ? " " : ""}${WORDS[it.state]}${it.state === "runs" && waits ? doing() : ""}`;
  return h("div", { of: `card${it.lines.length > LONG ? " long" : ""}`, "data-number": it.number },
    h("span", { of: "faint code", "aria-hidden": "true" }, "›"),
    h("pre", {}, coloured(it.typed)),
    h("div", {}, said, why, of && [why && " · ", of], what),
      h("time", {}, it.seconds === null ? "" : took(it.seconds)));
}

const doing = () => ` turn ${waits.turn} of actor ${waits.actor}${waits.runs ? `: ${waits.runs}` : ""}`;
const took = seconds => (seconds < 1 ? `${Math.round(seconds * 1000)} ms` : `${seconds.toFixed(1)} s`);

// What an event tells: cards that changed, names, and what the entry that goes on waits for.
export function tell(event) {
  if (event.waitsFor !== undefined) waits = event.waitsFor;
  const isAtEnd = list.scrollHeight - list.scrollTop - list.clientHeight < 40;
  for (const it of event.cards || []) {
    const made = card(it), old = cards.get(it.number);
    if (old) old.made.replaceWith(made);
    else list.append(made);
    cards.set(it.number, { ...it, made });
  }
  for (const [number, it] of cards) if (event.first && number < event.first) { it.made.remove(); cards.delete(number); }
  const going = [...cards.values()].filter(it => it.state === "runs" || it.state === "waits");
  stops.hidden = !going.length;
  if (!event.cards) for (const it of going.filter(each => each.state === "runs")) { const made = card(it); it.made.replaceWith(made);
    it.made = made; }
  if (isAtEnd && (event.cards || going.length)) list.scrollTop = list.scrollHeight;
  if (event.names) put(names, h("div", { of: "group" }, "names"),
    event.names.map(it => h("button", { of: "item", type: "button", style: { width: "100%" },
    onclick: () => (it.actor === null ? prefill(it.name) : go("actors", { actor: it.actor, object: 0 })) },
    h("span", { of: "code" }, it.name), h("span", { of: "dim cut grow", style: { "text-align": "left" } }, it.text))));
}

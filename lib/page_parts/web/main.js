// The page: it watches the image while it is seen, and gives each view what is told.

import { change, hasToken, watch } from "./ask.js";
import { confirmed } from "./dialog.js";
import { $, button, h, many, put, setText, toast } from "./dom.js";
import * as actors from "./actors.js";
import * as browse from "./browse.js";
import { figures, lamp } from "./figures.js";
import { find } from "./find.js";
import { at, go, image, see, setWindow, showsView, take, view } from "./image.js";
import * as pictures from "./pictures.js";
import { focusWork, tell as tellWork, workspace } from "./work.js";

const VIEWS = { browse, actors, pictures };
const SEEN = "actorimage-seen";
let watching = null, tries = 0;

function show() {
  const main = $("#main");
  main.className = at.view;
  for (const it of document.querySelectorAll("#tabs button")) {
    it.setAttribute("aria-selected", String(it.dataset.view === at.view));
    it.tabIndex = it.dataset.view === at.view ? 0 : -1;
  }
  main.setAttribute("aria-labelledby", `tab-${at.view}`);
  if (image.classes.size) VIEWS[at.view].show(main);
  else put(main, h("section", { of: "pane" }, h("div", { of: "nothing", id: "nothing" }, image.said || "Connecting…")));
  see();
  remember();
}

// Where one was is kept for the tab.
function remember() {
  const { view: name, class: className, selector, from, actor, failure, side, tab } = at;
  sessionStorage.setItem(SEEN, JSON.stringify({ view: name, class: className, selector, from, actor, failure, side, tab }));
}

// What the page is about: the socket or the file, and whether it only looks.
function about(it) {
  const name = it.socket.split("/").pop();
  $("#name").textContent = name;
  $("#name").title = it.socket;
  document.title = `${name} · actorimage`;
  document.body.classList.toggle("looks-only", it.looksOnly);
  for (const id of ["#checkpoint", "#save"]) $(id).hidden = it.looksOnly;
  $("#work").hidden = image.isFile = it.isFile;
  $("#is-file").hidden = !it.isFile;
  $("#beside").hidden = !it.beside;
  setText($("#beside"), it.beside);
  image.sender = it.sender;
}

function told(event) {
  setWindow(event.window);
  if (event.about) about(event.about);
  const isFirst = image.classes.size === 0, isChanged = take(event);
  lamp();
  if (event.figures || event.faults) figures();
  tellWork(event);
  tries = 0;
  if (isFirst && image.classes.size) {
    if (!image.classes.has(at.class)) Object.assign(at, { class: firstClass(), selector: undefined });
    show();
  } else if (image.classes.size) {
    if (!image.classes.has(at.class)) Object.assign(at, { class: "Object", selector: undefined });
    VIEWS[at.view].tell(event, isChanged);
  } else if (image.said) {
    put($("#main"), h("section", { of: "pane" },
      h("div", { of: "nothing", id: "nothing" }, `${image.said}. It is tried again each second.`)));
  }
}

const firstClass = () => [...image.classes.values()].find(it => !it.isKernel)?.name || "Object";

// Only a window that is seen watches: a browser has six connections to a host, and the image does not pay for what nobody sees.
async function follow() {
  if (watching || document.hidden) return;
  watching = new AbortController();
  const mine = watching;
  try {
    await watch(view(), told, mine.signal);
  } catch (error) {
    if (mine.signal.aborted) return;
    Object.assign(image, { state: "lost",
      said: error instanceof TypeError ? "the page's server does not answer; start bin/page again" : error.message });
    lamp();
  } finally {
    if (watching === mine) watching = null;
  }
  if (!mine.signal.aborted) {
    Object.assign(image, { state: "lost",
      said: image.state === "there" ? "the page's server does not answer; start bin/page again" : image.said });
    lamp();
    setTimeout(follow, Math.min(5000, 500 * ++tries));
  }
}

function seen() {
  if (document.hidden) { watching?.abort(); watching = null; } else follow();
}

const doing = {
  checkpoint: ["Have a checkpoint?",
    "It empties the history, for everybody. Turns are numbered anew, how they ended is forgotten but for the last of each actor, and "
      + "counts of call sites begin at 0.", "Checkpoint",
    it => `the history is empty; ${many(it.posts)} posts and ${many(it.steps)} steps in all`],
  save: ["Save the image?", "The server writes its image file now, in place of the one before.", "Save",
    it => `saved: ${many(it.bytes)} bytes`],
};

async function ask(what) {
  const [title, text, act, said] = doing[what];
  if (!(await confirmed(title, text, act))) return;
  const reply = await change(what);
  if (reply.error) toast(reply.error === "BadArguments" ? "the server was started without --image FILE, so nothing is saved" : reply.said,
    "bad");
  else toast(said(reply.ok));
}

function theme(name) {
  document.documentElement.dataset.theme = name;
  if (image.classes.size) VIEWS[at.view].recolour?.();
}

function pressed(event) {
  const isTyping = /^(INPUT|TEXTAREA|SELECT)$/.test(event.target.tagName), isControl = event.ctrlKey || event.metaKey;
  const act = (isControl && KEYS[`ctrl ${event.key.toLowerCase()}`]) || (event.altKey && KEYS[`alt ${event.key.toLowerCase()}`])
    || (!isTyping && !isControl && !event.altKey && KEYS[event.key]);
  if (!act || document.querySelector("dialog[open]")) return;
  event.preventDefault();
  act();
}

const under = key => () => { if (at.view === "browse") browse.pane.under.choose(key); };
const KEYS = {
  "ctrl k": () => find(), "/": () => find(), "ctrl s": () => at.view === "browse" && browse.pane.install(), "ctrl `": focusWork,
  "alt 1": () => go("browse"), "alt 2": () => go("actors"), "alt 3": () => go("pictures"),
  "alt c": under("sites"), "alt v": under("versions"), "alt n": under("senders"), "alt m": under("implementors"), "alt a": under("running"),
  "alt e": () => at.view === "browse" && browse.pane.editor.field.focus(), "alt +": () => at.view === "browse" && browse.fresh(),
};

function begin() {
  const dark = matchMedia("(prefers-color-scheme: dark)");
  theme(localStorage.getItem("actorimage-theme") || (dark.matches ? "dark" : "light"));
  dark.addEventListener("change", () => theme(localStorage.getItem("actorimage-theme") || (dark.matches ? "dark" : "light")));
  try { Object.assign(at, JSON.parse(sessionStorage.getItem(SEEN)) || { selector: undefined, class: "" });
    } catch { /* what is kept is another page's */ }
  showsView("all", show);
  workspace();
  for (const it of document.querySelectorAll("#tabs button")) it.onclick = () => go(it.dataset.view);
  $("#tabs").addEventListener("keydown", event => {
    const names = Object.keys(VIEWS), step = { ArrowRight: 1, ArrowLeft: -1 }[event.key];
    if (step) { go(names[(names.indexOf(at.view) + step + names.length) % names.length]); $(`#tab-${at.view}`).focus(); }
  });
  $("#find").onclick = () => find();
  $("#checkpoint").onclick = () => ask("checkpoint");
  $("#save").onclick = () => ask("save");
  $("#theme").onclick = () => { const to = document.documentElement.dataset.theme === "dark" ? "light" : "dark";
    localStorage.setItem("actorimage-theme", to); theme(to); };
  document.addEventListener("keydown", pressed);
  document.addEventListener("visibilitychange", seen);
  addEventListener("pagehide", remember);
  addEventListener("resize", () => { if (at.view === "actors" && image.classes.size) actors.resized(); });
  if (!hasToken) {
    put($("#main"), h("section", { of: "pane" },
      h("div", { of: "nothing", id: "nothing" }, "This page was opened without its token: open the address that bin/page printed.")));
    return;
  }
  show();
  follow();
}

begin();

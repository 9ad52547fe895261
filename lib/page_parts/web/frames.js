// The frames of a turn as rows, the running one first, and the one of them that is chosen with its source.

import { h } from "./dom.js";
import { go } from "./image.js";
import { reading } from "./source.js";

// `what` is said of the running one, and `choose` is told of the frame that is chosen.
export const frameRows = (frames, seen, what, choose) => frames.map((it, n) => h("button",
  { of: "frame", type: "button", "aria-pressed": String(n === seen), "data-key": `frame ${n}`, onclick: () => choose(n) },
  h("span", { of: "faint num" }, n), h("span", { of: "code cut" }, `${it.class} › ${it.selector}`),
  h("span", { of: "faint cut" }, n === frames.length - 1 ? what : it.waitsFor ? `waits for ${it.waitsFor}` : ""))).reverse();

export const frameSource = (it, mark) => [h("div", { of: "framed" }, reading(it.source, [], { now: it.words, mark })),
  !it.isNow && h("div", { of: "faint" }, `version ${it.version}, which is no longer the one of its class`)];

// Opens the method of a frame in the editor, at the send that it stands at.
export const editFrame = it => go("browse", { class: it.class, selector: it.selector, side: "own",
  place: { class: it.class, selector: it.selector, version: it.version, source: it.source, words: it.words } });

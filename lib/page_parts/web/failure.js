// Where a turn failed: the message, the frames of that moment, and the place in the source of each.

import { look } from "./ask.js";
import { button, h, many, plural, put } from "./dom.js";
import { editFrame, frameRows, frameSource } from "./frames.js";
import { at } from "./image.js";

// `list` shows named values, from which one can go on.
export class Failure {
  constructor(list) {
    this.list = list;
    this.root = h("div", { id: "failure", "aria-live": "polite" });
  }

  // Another actor or another fault is in sight, or none.
  async begin() {
    const it = at.failure && at.failure.actor === at.actor ? at.failure : null;
    if (it === this.asked) return;
    Object.assign(this, { asked: it, told: null });
    put(this.root, it && h("div", { of: "sect faint" }, `asking where turn ${it.turn} failed`));
    if (!it) return;
    const reply = await look("fault", it);
    if (this.asked !== it) return;
    this.told = reply.ok || { ...it, fault: "", why: reply.said, frames: [] };
    this.seen = this.told.frames.length - 1;
    this.draw();
    this.root.scrollIntoView({ block: "nearest" });
  }

  close() {
    at.failure = null;
    this.begin();
  }

  choose(n) {
    this.seen = n;
    this.draw();
    this.root.querySelector("[aria-pressed=true]")?.focus({ preventScroll: true });
  }

  draw() {
    const { turn, fault, step, failed, means, why, instead, frames } = this.told;
    put(this.root, h("div", { of: "sect" },
      h("h3", {}, h("span", { of: "grow" }, `Turn ${many(turn)}${fault ? " ended with a fault" : ""}`,
        step && h("span", { of: "faint" }, ` at step ${many(step)}`)),
        button("", "✕", () => this.close(), { "aria-label": "Close where it failed", title: "Close" })),
      instead && h("div", { of: "banner", id: "instead" }, instead),
      fault && h("div", { of: "code failed-at" }, h("span", { of: "chip fault" }, `✕ ${fault}`), failed && h("span", {}, failed)),
      means && h("div", { of: "dim" }, means), why && h("div", {}, why),
      frames.length ? this.frames() : failed && h("div", { of: "faint" }, "the first message of the turn; no method had begun")));
    this.showPlace();
  }

  // The place in a long source.
  showPlace() {
    const box = this.root.querySelector(".framed"), now = box?.querySelector(".now");
    if (now) box.scrollTop += now.getBoundingClientRect().top - box.getBoundingClientRect().top - box.clientHeight / 2;
  }

  frames() {
    const { frames } = this.told, it = frames[this.seen], isLast = this.seen === frames.length - 1;
    const self = it.of === it.class ? it.receiver : { ...it.receiver, text: `${it.receiver.text}, ${it.of}` };
    return [h("div", { of: "faint" }, plural(frames.length, "frame"), ", the failing one first"),
      h("div", { of: "frames" }, frameRows(frames, this.seen, "failed", n => this.choose(n))),
      frameSource(it, isLast ? "failed" : ""), !it.words.length && h("div", { of: "faint" }, "where in it is not known"),
      this.list([{ name: "self", value: self }, ...it.slots, ...it.variables], "failed"),
      h("div", {}, button("plain", `Edit ${it.class} › ${it.selector}`, () => editFrame(it),
        { title: "Opens it in the editor at this place", id: "edit-frame" }))];
  }
}

// The inspector: an actor with its objects, the turn in which it is, its mailbox, and how its newest turns ended.

import { change } from "./ask.js";
import { confirmed } from "./dialog.js";
import { aOrAn, button, h, many, plural, put, toast } from "./dom.js";
import { Failure } from "./failure.js";
import { putFaults, whereButton } from "./faults.js";
import { frameRows, frameSource } from "./frames.js";
import { at, go, see } from "./image.js";
import { prefill } from "./work.js";

const SHOWN = 8;
const CHIPS = { fresh: ["never ran", ""], start: ["begins a turn", "turn"], frames: ["in a turn", "turn"], answer: ["idle", ""],
  fault: ["ended by a fault", "fault"] };

export class Inspector {
  constructor() {
    this.told = null;
    this.frame = null;
    this.isWhole = false;
    this.backs = button("plain", "‹", () => this.goBack(), { title: "Back", "aria-label": "Back to what was inspected before" });
    this.crumbs = h("div", { of: "crumbs grow" });
    this.chip = h("span", { of: "chip" });
    this.posts = button("plain changes", "Post…", () => prefill(`actor ${at.actor} `), { title: "Writes a message to it in the workspace" });
    this.closes = button("plain danger changes", "Close", () => this.close(), { title: "Closes its mailbox, for good" });
    this.failure = new Failure((named, key) => this.list(named, key));
    this.standing = h("div");
    this.body = h("div", { of: "scroll", id: "inspected" }, this.failure.root, this.standing);
    this.root = h("section", { of: "pane", "aria-label": "Inspector" },
      h("header", {}, this.backs, this.crumbs, this.chip, this.posts, this.closes), this.body);
    this.begin();
  }

  // Another actor is in sight.
  begin() {
    this.frame = null;
    this.isWhole = false;
    this.before = null;
    this.backs.disabled = !at.back.length;
    this.failure.begin();
    if (at.actor === null) {
      this.told = null;
      for (const it of [this.posts, this.closes]) it.disabled = true;
      put(this.crumbs, h("span", { of: "sel" }, "Inspector"));
      this.tellFaults();
    } else if (this.told?.actor !== at.actor) {
      put(this.crumbs, h("span", { of: "sel" }, `actor ${at.actor}`));
      put(this.standing);
    }
  }

  // Where no actor is chosen the newest faults stand.
  tellFaults() {
    if (at.actor !== null) return;
    putFaults(this.standing, h("div", { of: "nothing" },
      "Choose an actor in the map or in the table; its variables, its turn and its mailbox are followed here."),
      h("div", { of: "group" }, "Faults, the newest first"));
  }

  goBack() {
    const to = at.back.pop();
    if (to) { [at.actor, at.object] = to; at.failure = null; this.begin(); see().then(it => it?.inspected && this.tell(it.inspected)); }
  }

  async close() {
    const number = at.actor;
    if (!(await confirmed(`Close the mailbox of actor ${number}?`,
      "It accepts nothing more, and is never opened again. What waits in it still runs.", "Close it"))) return;
    const reply = await change("close", { actor: number });
    toast(reply.error ? reply.said : `actor ${number} is closed`, reply.error ? "bad" : "");
  }

  tell(told) {
    this.before = this.told && this.told.actor === told.actor && this.told.object === told.object ? this.told : null;
    this.told = told;
    for (const it of [this.posts, this.closes]) it.disabled = Boolean(told.isGone);
    if (told.isGone) {
      put(this.crumbs, h("span", { of: "sel" }, `actor ${told.actor}`));
      put(this.standing, h("div", { of: "nothing" }, `There is no actor ${told.actor}.`));
      return;
    }
    this.head();
    const place = this.body.scrollTop, isIn = this.standing.contains(document.activeElement) ? document.activeElement.dataset.key : null;
    put(this.standing, this.variables(), this.turn(), this.mailbox(), this.ends());
    this.body.scrollTop = place;
    if (isIn) this.standing.querySelector(`[data-key="${CSS.escape(isIn)}"]`)?.focus({ preventScroll: true });
  }

  head() {
    const { actor, class: name, object, objectClass, phase, open } = this.told;
    put(this.crumbs, h("span", { of: "sel" }, `actor ${actor}`), h("span", { of: "dim" }, aOrAn(name).split(" ")[0]),
      button("link", name, () => go("browse", { class: name, selector: undefined })),
      object > 0 && [h("span", { of: "faint" }, "›"), h("span", {}, `object ${object}, ${aOrAn(objectClass)}`)]);
    const [text, of] = CHIPS[phase];
    this.chip.className = `chip ${of}`;
    this.chip.textContent = open ? text : `${text}, closed`;
    this.closes.disabled = !open;
    this.backs.disabled = !at.back.length;
  }

  // A value, from which one can go on.
  value(it, key) {
    if (it.actor !== undefined) return button("link code", it.text, () => this.follow(it.actor, 0), { "data-key": key });
    if (it.local !== undefined && it.local !== 0) return button("link code", it.text, () => this.follow(at.actor, it.local),
      { "data-key": key });
    if (it.local === 0) return button("link code", `actor ${at.actor} itself`, () => this.follow(at.actor, 0), { "data-key": key });
    if (it.class !== undefined) return button("link code", it.text, () => go("browse", { class: it.class, selector: undefined }),
      { "data-key": key });
    return h("span", { of: "code", title: it.text }, it.text);
  }

  follow(actor, object) {
    at.back = [...at.back, [at.actor, at.object]].slice(-50);
    if (actor !== at.actor) at.failure = null;
    Object.assign(at, { actor, object });
    this.begin();
    see().then(it => it?.inspected && this.tell(it.inspected));
  }

  list(named, key) {
    return h("div", { of: "vars" }, named.map(({ name, value }, n) => {
      const before = key === "slot" ? this.before?.variables[n]?.value.text : undefined;
      return [h("span", { of: "dim code" }, name),
        h("span", { of: before !== undefined && before !== value.text ? "flash" : "" }, this.value(value, `${key} ${name}`))];
    }));
  }

  variables() {
    const { variables, object, objects, objectClass } = this.told;
    return h("div", { of: "sect" }, h("h3", {}, object ? `Variables of object ${object}, ${aOrAn(objectClass)}` : "Variables",
      h("span", { of: "faint" }, plural(objects, "object"))),
      variables.length ? this.list(variables, "slot") : h("div", { of: "faint" }, "no instance variables"));
  }

  turn() {
    const { turn, phase, stands, frames } = this.told;
    if (phase === "fresh") return h("div", { of: "sect" }, h("h3", {}, "Turn"), h("div", { of: "faint" }, "none yet"));
    const head = h("h3", {}, `Turn ${turn === null ? "" : many(turn)}`,
      phase === "frames" && h("span", { of: "faint" }, `${plural(frames.length, "frame")}, as of the last commit`));
    if (phase === "start") return h("div", { of: "sect" }, head, h("div", {}, "begins ", h("span", { of: "code" }, stands)));
    if (phase === "answer") return h("div", { of: "sect" }, head, h("div", {}, "answered ", h("span", { of: "code" }, stands)));
    if (phase === "fault") return h("div", { of: "sect" }, head,
      h("div", {}, h("span", { of: "chip fault" }, `✕ ${stands}`), h("span", { of: "dim" }, " ended it; what it changed before stays "),
        whereButton(at.actor, turn, "where")));
    return h("div", { of: "sect" }, head, this.frames());
  }

  // The frames, the running one first; the one that is chosen with its source and its variables.
  frames() {
    const { frames } = this.told, seen = Math.min(this.frame ?? frames.length - 1, frames.length - 1), it = frames[seen];
    const choose = n => { this.frame = n === frames.length - 1 ? null : n; this.tell(this.told); };
    return [frameRows(frames, seen, "runs", choose), frameSource(it),
      this.list([{ name: "self", value: it.receiver }, ...it.variables], "temp"),
      it.operands.length > 0 && h("div", { of: "dim" }, "operands: ",
        it.operands.map((each, n) => [n > 0 && ", ", this.value(each, `operand ${n}`)])),
      h("div", {}, button("link", `browse ${it.class} › ${it.selector}`, () => go("browse", { class: it.class, selector: it.selector }),
        { "data-key": "browse" }))];
  }

  mailbox() {
    const { waiting, capacity, pending, open } = this.told, shown = this.isWhole ? pending : pending.slice(0, SHOWN);
    return h("div", { of: "sect" }, h("h3", {}, "Mailbox",
      h("span", { of: "faint" }, `${many(waiting)} of ${many(capacity)}${open ? "" : ", closed"}`)),
      waiting ? h("div", { of: "vars three" },
        shown.map((it, n) => [h("span", { of: "faint" }, n + 1), h("span", { of: "code", title: it.message }, it.message),
        h("span", { of: "dim" }, "from ", this.value(it.from, `from ${n}`))])) : h("div", { of: "faint" }, "empty"),
      shown.length < waiting && !this.isWhole
        && button("link", `and ${many(waiting - shown.length)} more`, () => { this.isWhole = true; this.tell(this.told); },
        { "data-key": "more" }));
  }

  ends() {
    const { ends } = this.told, faults = ends.filter(it => it.fault);
    if (!ends.length) return null;
    return h("div", { of: "sect" }, h("h3", {}, "How the newest turns ended", h("span", { of: "faint" }, "an image keeps 64 of an actor")),
      h("div", { of: "strip", role: "img", "aria-label": `${plural(ends.length, "turn")}, ${plural(faults.length, "fault")}` },
        ends.map(it => h("i", { of: it.fault ? "fault" : "",
        title: `turn ${it.turn}: ${it.fault ? `fault ${it.fault}` : `answered ${it.answer}`}` }))),
      faults.slice(-4).reverse().map(it => h("div", {}, h("span", { of: "chip fault" }, `✕ ${it.fault}`),
        h("span", { of: "dim" }, ` in turn ${it.turn} `), whereButton(at.actor, it.turn, `where ${it.turn}`))));
  }
}

// The pane of one method: its source, what is said of it, and what can be done with it.

import { change, look, mine } from "./ask.js";
import { confirmed } from "./dialog.js";
import { difference } from "./diff.js";
import { button, h, put, setText, toast } from "./dom.js";
import { draft, hasDraft, keep } from "./drafts.js";
import { Editor } from "./editor.js";
import { find } from "./find.js";
import { at, holder, image, isMine, see, versionOf } from "./image.js";
import { makeRoom } from "./source.js";
import { Under } from "./under.js";

// Who has made an edit: somebody at this page, or another client.
const by = it => (it?.isOurs ? "in the workspace or another window of this page" : "by somebody else");
const ORDER = n => `${n}${n % 100 > 10 && n % 100 < 14 ? "th" : ["th", "st", "nd", "rd"][n % 10] || "th"}`;

// `told` is what the server says of the method; that of a new one has no version. `theirs` is another person's version, if one came, and
// `drafted` is called where a draft comes or goes.
export class MethodPane {
  constructor() {
    this.told = null;
    this.theirs = null;
    this.drafted = () => {};
    this.editor = new Editor({ changed: () => this.typed(), asked: selector => find(selector) });
    this.under = new Under(this);
    this.head = h("div", { of: "crumbs grow" });
    this.chip = h("span", { of: "chip changed", hidden: true }, "● changed");
    this.buttons = {
      remove: button("plain danger changes", "Remove", () => this.remove(), { title: "Removes the method from its class" }),
      revert: button("plain", "Revert", () => this.revert(), { title: "Forgets what was typed" }),
      install: button("plain", "Install", () => this.install(), { title: "Ctrl+S", id: "install" }),
    };
    this.banner = h("div", { role: "alert" });
    this.over = h("div", { of: "scroll over" }, this.editor.root);
    this.none = h("div", { of: "nothing" }, "Choose a method, or write a new one with + above the methods.");
    this.root = h("section", { of: "pane", "aria-label": "Method" },
      h("header", {}, this.head, this.chip, Object.values(this.buttons)), this.banner, this.none, this.over, this.editor.hint, this.under.root);
    this.draw();
  }

  // Opens a method of the class in sight, or the one that it has from the class `from`: of each just its own, also if that is gone.
  // Without a selector a new method is opened.
  async open(name, selector, from = name) {
    this.theirs = this.other = null;
    at.from = from;
    const turn = this.turn = (this.turn || 0) + 1;
    if (selector === null) {
      this.isOpening = false;
      this.take({ class: name, selector: "", source: "", version: 0, sites: [], versions: [], isNew: true });
      return;
    }
    this.isOpening = true;
    const asked = await look("method", { class: from, selector, own: true });
    if (turn !== this.turn) return;
    this.isOpening = false;
    if (at.class !== name || at.selector !== selector) return;
    if (asked.error) { this.say(asked.said); return; }
    this.take(asked.ok);
  }

  // Opens what is in sight anew.
  openAgain() { return this.open(at.class, this.told.isNew ? null : at.selector, this.told.class); }

  // Whether a method of a class is the one in sight.
  shows(name, selector) { return this.told?.class === name && this.told.selector === selector; }

  // Whether it is the one that is chosen, also while that is still asked for.
  isChosen(name, selector) { return at.from === name && (at.selector ?? "") === selector && this.shows(name, selector); }

  take(told) {
    Object.assign(this, { told, theirs: null, hasOwn: null });
    const kept = draft(told.class, told.selector);
    at.shown = (told.source !== undefined || kept) && !told.isNew ? [told.class, told.selector] : null;
    if (kept && !told.kernel) {
      if (kept.version !== (told.version || 0)) this.theirs = { ...told.versions.at(-1), version: told.version || 0, source: told.source ?? null };
      this.began = { base: kept.base, version: kept.version };
      this.editor.show(kept.source, kept.version === told.version ? told.source : kept.base,
        kept.version === told.version ? told.sites : []);
    } else {
      this.began = { base: told.source || "", version: told.version || 0 };
      this.editor.show(told.source || "", told.source || "", told.sites || []);
    }
    this.said = "";
    this.draw();
    makeRoom(this.editor.root);
    this.under.open();
    see();
    this.showPlace();
  }

  // Where a turn failed in this method, if one came from there.
  showPlace() {
    const { told } = this, place = at.place;
    at.place = null;
    if (!place) return;
    const { class: name, selector, version } = place;
    if (told.class !== name || !told.version) this.say(`${name} has no method ${selector} of its own now; it failed in version ${version}.`);
    else {
      if (told.version !== version) this.say(`It failed in version ${version}, and this is ${told.version}.`);
      if (place.words.length) this.editor.pointAt(place.words, place.source);
    }
  }

  // What was typed stays also where somebody else has removed the method.
  get hasText() {
    const { told } = this;
    if (!told || told.isNew) return Boolean(told) && !image.isFile;
    return told.source !== undefined || !told.kernel && hasDraft(told.class, told.selector);
  }

  get isChanged() { return Boolean(this.told) && this.editor.text !== this.began.base; }

  typed() {
    if (!this.told) return;
    const { class: name, selector } = this.told, had = hasDraft(name, selector);
    keep(name, selector, this.isChanged ? { source: this.editor.text, ...this.began } : null);
    this.said = "";
    this.draw();
    if (had !== this.isChanged) this.drafted();
  }

  say(text) {
    this.said = text;
    this.draw();
  }

  draw() {
    const told = this.told, isShown = this.hasText;
    this.none.hidden = isShown;
    this.over.hidden = !isShown;
    this.under.root.hidden = !told || told.isNew;
    put(this.head, told && [h("span", { of: "C" }, told.class), h("span", { of: "faint" }, "›"),
      h("span", { of: "sel cut" }, told.selector || (image.isFile ? "" : "new method")), h("span", { of: "faint cut" }, this.which())]);
    if (told && !isShown) {
      put(this.none, this.whyNone());
    }
    this.chip.hidden = !this.isChanged;
    this.editor.field.readOnly = this.editor.hint.hidden = image.isFile;
    this.buttons.install.hidden = this.buttons.revert.hidden = image.isFile;
    this.buttons.install.disabled = !this.isChanged || image.isFile;
    this.buttons.install.className = this.isChanged ? "main" : "plain";
    this.buttons.revert.disabled = !this.isChanged && !this.theirs;
    this.buttons.remove.disabled = !told || !told.version;
    this.drawBanner();
  }

  // What is said where there is no source.
  whyNone() {
    const { class: name, selector, kernel, gone } = this.told;
    if (!selector) return `${name} has no method of its own.`;
    if (kernel) return `${name} has ${selector} from the kernel, which has no source.`;
    const from = holder(image.classes.get(name)?.above, selector), runs = from ? ` A send of it runs that of ${from}.` : "";
    const way = image.isFile ? "." : ": one can be brought back.";
    if (gone) return `${name} has no method ${selector} now.${runs} Its versions stand below${way}`;
    return `${name} has no method ${selector} of its own.${runs}`;
  }

  which() {
    const { version, versions } = this.told;
    if (!version) return "";
    const own = versions.filter(it => it.source !== null);
    return `version ${version}, ${own.length === 1 ? "the only one" : `the ${ORDER(own.length)}`} here`;
  }

  drawBanner() {
    if (!this.theirs && this.hasOwn) {
      const { class: name, selector } = this.told;
      put(this.banner, h("div", { of: "banner", id: "own-now" }, h("span", { of: "grow" },
        `${at.class} runs ${selector} of ${this.hasOwn} now. What you typed is for ${name}, and stays there.`),
      button("plain", `Show that of ${this.hasOwn}`, () => this.open(at.class, selector, this.hasOwn), { id: "show-own" })));
      return;
    }
    if (!this.theirs) {
      put(this.banner, this.said && h("div", { of: "banner bad" }, h("span", { of: "grow" }, this.said)));
      return;
    }
    const { version, source } = this.theirs, began = this.began.version;
    const isOther = this.other && this.other !== this.told.selector, mine = isOther ? this.other : this.told.selector;
    const what = isOther ? `There is a method ${mine} already, version ${version}` : version ? `Replaced meanwhile by version ${version}` : "Removed meanwhile";
    const how = isOther ? "" : ` ${by(this.theirs)}; you began with ${began || "none"}`;
    put(this.banner, h("div", { of: "banner", id: "conflict" },
      h("b", {}, what), h("span", { of: "grow" }, `${how}. Nothing is overwritten.`),
      button("plain", "Show both", () => { this.areBoth = !this.areBoth; this.drawBanner(); },
        { "aria-expanded": String(Boolean(this.areBoth)), id: "show-both" }),
      button("plain", "Take theirs", () => this.takeTheirs(), { title: "What you typed is forgotten", id: "take-theirs" }),
      button("plain", version ? `Install mine over ${version}` : "Install mine",
        () => this.install({ selector: mine, version }), { id: "install-mine" })),
      this.areBoth && h("div", { of: "sect", id: "both" }, h("h3", {}, "Theirs, and what yours would change in it"),
        difference(source ?? "", this.editor.text)));
  }

  async install(seen = null) {
    if (image.isFile) { this.say("This is an image file, read alone: nothing is installed in it."); return; }
    if (!this.told || (!this.isChanged && !seen)) return;
    const { class: name, selector } = this.told, text = this.editor.text;
    const given = seen || { selector, version: this.began.version };
    this.isInstalling = true;
    const reply = await change("install", { class: name, source: text, seen: given });
    this.isInstalling = false;
    if (!this.isChosen(name, selector)) {
      if (reply.ok && draft(name, selector)?.source === text) keep(name, selector, null);
      toast(reply.ok ? `${name} › ${reply.selector} is version ${reply.ok.version}` : `${name} › ${selector}: ${reply.said}`,
        reply.ok ? "" : "bad");
      this.drafted();
      return;
    }
    if (reply.ok) { await this.installed(name, selector, reply); return; }
    if (reply.error === "Stale") {
      Object.assign(this, { theirs: reply.theirs, other: reply.selector, areBoth: true, said: "" });
      this.draw();
      return;
    }
    if (reply.place) { this.editor.mark({ place: reply.place, said: reply.said }); this.say(""); return; }
    this.say(reply.said);
  }

  async installed(name, selector, reply) {
    keep(name, selector, null);
    keep(name, reply.selector, null);
    this.drafted();
    toast(`${name} › ${reply.selector} is version ${reply.ok.version}`);
    if (reply.unknown.length) toast(`no class has a method ${reply.unknown.join(", ")}`, "warn");
    this.theirs = null;
    at.selector = reply.selector;
    await this.open(at.class, reply.selector, name);
  }

  takeTheirs() {
    const { class: name, selector } = this.told, to = this.other || selector;
    keep(name, selector, null);
    this.theirs = null;
    at.selector = to;
    this.open(at.class, to, name);
    this.drafted();
  }

  revert() {
    if (!this.told) return;
    keep(this.told.class, this.told.selector, null);
    this.theirs = null;
    this.openAgain();
    this.drafted();
  }

  async remove() {
    const { class: name, selector, version } = this.told;
    if (!(await confirmed(`Remove ${name} › ${selector}?`,
      "From the next send on it is not there. Its versions stay, and one can be brought back.", "Remove"))) return;
    this.isInstalling = true;
    const reply = await change("remove", { class: name, selector, seen: version });
    this.isInstalling = false;
    if (!reply.ok && !this.isChosen(name, selector)) { toast(`${name} › ${selector}: ${reply.said}`, "bad"); return; }
    if (reply.theirs) { this.theirs = reply.theirs; this.draw(); return; }
    if (reply.error) { this.say(reply.said); return; }
    keep(name, selector, null);
    toast(`${name} › ${selector} is removed: version ${reply.ok.version}`, "",
      button("link", "Undo", () => this.undo(name, selector, reply.removed)));
    if (this.isChosen(name, selector)) await this.openAgain();
  }

  // Installs what a removal took, whatever is in sight by now, and over nothing that somebody has written since.
  async undo(name, selector, removed) {
    const reply = await this.installAgain(name, selector, removed, 0, false);
    if (reply.theirs) toast(`${name} › ${selector} is version ${reply.theirs.version} now, of somebody else; nothing is written over`, "bad");
    else if (reply.error) toast(reply.said, "bad");
  }

  // Installs what was there in a version, over the one that is in sight.
  async bringBack(name, selector, version) {
    const told = this.told, reply = await this.installAgain(name, selector, version, told.version || 0, true);
    if (this.told !== told) return;
    if (reply.theirs) { this.theirs = reply.theirs; this.draw(); }
    else if (reply.error) this.say(reply.said);
  }

  // With `isForgotten` what was typed in its place is given up.
  async installAgain(name, selector, version, over, isForgotten) {
    this.isInstalling = true;
    const reply = await change("install", { class: name, source: version.source, seen: { selector, version: over } });
    if (reply.ok) {
      if (isForgotten) keep(name, selector, null);
      toast(`${name} › ${selector}: version ${version.version} is back, as version ${reply.ok.version}`);
      if (this.isChosen(name, selector)) await this.openAgain();
    }
    this.isInstalling = false;
    return reply;
  }

  // What a tick tells. Another version than the one in sight is somebody else's.
  tell(event) {
    const told = this.told, sites = event.sites;
    this.under.tellClasses();
    if (!told || told.isNew || at.selector !== told.selector || this.isInstalling || this.isAsking || this.isOpening) return;
    const { class: name, selector } = told, version = versionOf(name, selector), from = name !== at.class && holder(at.class, selector);
    if (sites && this.shows(sites.class, sites.selector) && sites.version === told.version) {
      this.under.tell(sites);
      told.sites = sites.sites;
      if (this.began.version === told.version) this.editor.tell(sites.sites);
    }
    if (!this.hasText) setText(this.none, this.whyNone());
    if (from && from !== name) this.another(from);
    else if (version === (told.version || 0)) this.hasOwn = null;
    else if (!this.isChanged) this.refresh();
    else if (!this.theirs || this.theirs.version !== version) this.meanwhile();
  }

  // A send to an object of the class in sight runs a method of another class now. What was typed stays where it was typed for.
  another(from) {
    const { class: name, selector } = this.told;
    if (from === this.hasOwn && this.isChanged) return;
    this.hasOwn = from;
    if (this.isChanged) { this.draw(); return; }
    if (!isMine(selector)) toast(`${at.class} runs ${selector} of ${from} now, no longer that of ${name}`, "warn");
    this.open(at.class, selector, from);
  }

  // Asks what is there now, as long as nothing else is opened or installed meanwhile: an event may be of before.
  async asked() {
    const told = this.told, turn = this.turn;
    this.isAsking = true;
    const reply = await look("method", { class: told.class, selector: told.selector, own: true });
    this.isAsking = false;
    if (!reply.ok || turn !== this.turn || told !== this.told || this.isInstalling) return null;
    return { told: reply.ok, version: reply.ok.version || 0, source: reply.ok.source ?? null };
  }

  // Nothing was typed: what is there now is shown.
  async refresh() {
    const { class: name, selector, version } = this.told, now = await this.asked();
    if (!now || now.version === (version || 0) || this.isChanged) return;
    const edit = now.told.versions.at(-1), what = now.version ? `is version ${now.version} now, made` : "was removed";
    if (!mine.has(edit?.version)) toast(`${name} › ${selector} ${what} ${by(edit)}`, "warn");
    this.take(now.told);
  }

  // Something was typed: it stays, and another version is told.
  async meanwhile() {
    const { class: name, selector } = this.told, now = await this.asked();
    if (!now || now.version === this.began.version) return;
    this.told = { ...now.told, class: name, selector };
    Object.assign(this, { theirs: { ...now.told.versions.at(-1), version: now.version, source: now.source }, other: null });
    this.draw();
    this.under.open();
  }
}

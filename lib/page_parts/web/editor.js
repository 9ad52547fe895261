// A text field without ink exactly over the coloured source: what is typed, undone and read aloud is that of the browser's own field.

import { $, h } from "./dom.js";
import { Indent } from "./indent.js";
import { coloured, makeRoom, moved } from "./source.js";

// `base` is the text to which the sites belong. `changed` is told of each text, `asked` of a send that was clicked with Ctrl.
export class Editor {
  constructor({ changed, asked }) {
    this.base = "";
    this.sites = [];
    this.wrong = null;
    this.now = [];
    this.field = h("textarea", {
      spellcheck: "false", autocapitalize: "off", autocomplete: "off", "aria-label": "Source of the method", id: "source",
      placeholder: "bump: by\n  count := count + by.\n  ^count", "aria-describedby": "leaving",
      oninput: () => { this.wrong = null; this.now = []; this.draw(); changed(this.field.value); },
      onkeydown: event => this.pressed(event),
      onmousemove: event => this.point(event),
      onclick: event => { const it = this.under(event);
        if (it && (event.ctrlKey || event.metaKey)) asked(this.shownSites[it.dataset.n].selector); },
    });
    this.back = h("div", { of: "back" });
    this.indent = new Indent(this.field);
    this.root = h("div", { of: "source" }, this.back, this.field);
    this.hint = h("div", { of: "hint" }, h("span", { id: "leaving" }, "Tab indents; Escape, then Tab, leaves"));
  }

  // Shows a text of a version that has these sites.
  show(text, base, sites) {
    Object.assign(this, { base, sites, wrong: null, now: [] });
    if (this.field.value !== text) this.field.value = text;
    this.draw();
  }

  get text() { return this.field.value; }

  tell(sites) {
    this.sites = sites;
    this.draw();
  }

  // Marks what is wrong, and puts the cursor there.
  mark(wrong) {
    this.wrong = wrong;
    this.draw();
    if (wrong) {
      this.field.focus();
      this.field.setSelectionRange(wrong.place[0], Math.min(wrong.place[1], this.text.length));
    }
  }

  // Shows the words of a send of a source, as far as they stand in the text still, and puts the cursor there.
  pointAt(words, source) {
    const [there] = moved([{ words }], source, this.text);
    if (!there) return;
    this.now = there.words;
    this.draw();
    this.field.focus({ preventScroll: true });
    this.field.setSelectionRange(...there.words[0]);
    this.back.querySelector(".now")?.scrollIntoView({ block: "center" });
  }

  draw() {
    const isOld = this.text !== this.base;
    this.shownSites = isOld ? moved(this.sites, this.base, this.text) : this.sites;
    const back = coloured(this.text, this.shownSites, { wrong: this.wrong, now: this.now, mark: "failed", isHidden: true });
    this.back.replaceWith(back);
    this.back = back;
    this.root.classList.toggle("old", isOld);
    this.field.setAttribute("aria-invalid", this.wrong ? "true" : "false");
    makeRoom(this.root);
  }

  // A new line begins under the one before.
  pressed(event) {
    if (this.indent.takes(event) || event.key !== "Enter" || event.ctrlKey || event.metaKey || event.altKey) return;
    const line = this.text.slice(0, this.field.selectionStart).split("\n").pop(), blanks = line.match(/^[ \t]*/)[0];
    if (!blanks) return;
    event.preventDefault();
    document.execCommand("insertText", false, "\n" + blanks);
  }

  under(event) {
    return document.elementsFromPoint(event.clientX, event.clientY).map(it => it.closest?.(".site")).find(Boolean);
  }

  point(event) {
    const it = this.under(event);
    light(it ? it.dataset.n : null);
    this.field.title = it ? it.title : "";
    this.field.style.cursor = it && (event.ctrlKey || event.metaKey) ? "pointer" : "";
  }
}

// Shows which send a row of the list is, and which row a send.
export function light(n) {
  const main = $("#main");
  for (const it of main.querySelectorAll(".on[data-n]")) it.classList.remove("on");
  if (n !== null) for (const it of main.querySelectorAll(`[data-n="${n}"]`)) it.classList.add("on");
}

// The classes as a tree, with a filter and the heat of what they send.

import { defineClass, reparentClass } from "./dialog.js";
import { button, h, many, put } from "./dom.js";
import { at, go, image } from "./image.js";
import { oneStop, walkable } from "./lists.js";
import { heat } from "./shapes.js";

export class ClassTree {
  constructor() {
    this.closed = new Set();
    this.filter = "";
    this.input = h("input", { placeholder: "filter", type: "search", "aria-label": "Filter of classes",
      oninput: () => { this.filter = this.input.value.trim().toLowerCase(); this.draw(); },
      onkeydown: event => { if (event.key === "ArrowDown") { event.preventDefault(); this.box.querySelector("[role=treeitem]")?.focus();
        } } });
    this.number = h("span", { of: "count" });
    this.box = h("div", { role: "tree", "aria-label": "Classes" });
    walkable(this.box, it => this.choose(it.dataset.text), (event, it) => this.opens(event, it));
    this.box.addEventListener("click", event => { const it = event.target.closest(".caret"); if (it) this.turn(it.parentNode.dataset.text);
      });
    this.scroll = h("div", { of: "scroll" }, this.box);
    this.root = h("section", { of: "pane", "aria-label": "Classes" },
      h("header", {}, h("h2", {}, "Classes"), this.input, this.number,
        button("plain changes", "+", () => this.define(), { title: "Defines a class", "aria-label": "Define a class", id: "new-class" })),
      this.scroll, h("div", { of: "tools" },
        this.move = button("plain changes", "Superclass…", () => reparentClass(at.class), { title: "Puts the class under another one" })));
  }

  choose(name) { if (name !== at.class) go("browse", { class: name, selector: undefined }); }

  async define() {
    const name = await defineClass(at.class && !(image.classes.get(at.class)?.isKernel && at.class !== "Object") ? at.class : "Object");
    if (name) go("browse", { class: name, selector: undefined });
  }

  turn(name) {
    if (this.closed.has(name)) this.closed.delete(name);
    else this.closed.add(name);
    this.draw();
  }

  // The arrows to the sides open and close a class, or go to the one above.
  opens(event, it) {
    if (!it || (event.key !== "ArrowLeft" && event.key !== "ArrowRight")) return false;
    const name = it.dataset.text, isOpen = it.getAttribute("aria-expanded") === "true";
    if (event.key === "ArrowRight" && it.getAttribute("aria-expanded") === "false") { this.turn(name); this.rows.get(name)?.focus(); }
    else if (event.key === "ArrowLeft" && isOpen) { this.turn(name); this.rows.get(name)?.focus(); }
    else if (event.key === "ArrowLeft") { const above = image.classes.get(name)?.above;
      if (above && this.rows.has(above)) { this.choose(above); this.rows.get(above).focus(); } }
    return true;
  }

  draw() {
    const rows = [], place = this.scroll.scrollTop, isIn = this.box.contains(document.activeElement);
    this.rows = new Map();
    this.bars = new Map();
    const children = new Map();
    for (const it of image.classes.values()) if (it.above) children.set(it.above, [...(children.get(it.above) || []), it]);
    const add = (it, depth) => {
      const kids = (children.get(it.name) || []).filter(each => !each.isKernel).sort((a, b) => (a.name < b.name ? -1 : 1));
      const isFound = !this.filter || it.name.toLowerCase().includes(this.filter);
      if (isFound) rows.push(this.row(it, this.filter ? 0 : depth, kids.length > 0 && !this.filter));
      if (this.filter || !this.closed.has(it.name)) for (const each of kids) add(each, depth + 1);
    };
    const object = image.classes.get("Object");
    if (object) add(object, 0);
    const kernel = [...image.classes.values()].filter(it => it.isKernel && it.name !== "Object"
      && (!this.filter || it.name.toLowerCase().includes(this.filter)));
    if (kernel.length) rows.push(h("div", { of: "group", role: "presentation" }, "kernel"), kernel.map(it => this.row(it, 0, false)));
    put(this.box, rows.length ? rows : h("div", { of: "nothing" }, "No class is named so."));
    this.number.textContent = many(image.classes.size);
    this.move.disabled = !image.classes.get(at.class) || image.classes.get(at.class).isKernel;
    oneStop(this.box);
    this.scroll.scrollTop = place;
    if (isIn) this.rows.get(at.class)?.focus({ preventScroll: true });
    this.warm();
  }

  row(it, depth, hasMore) {
    const isOpen = !this.closed.has(it.name), bar = h("span", { style: { display: "contents" } });
    this.bars.set(it.name, bar);
    const row = h("div", { of: `item${it.isKernel ? " kernel" : ""}`, role: "treeitem", "data-text": it.name, "aria-level": depth + 1,
      "aria-selected": String(it.name === at.class),
      "aria-expanded": hasMore ? String(isOpen) : null, style: { "padding-left": `${6 + depth * 14}px` } },
      h("span", { of: "caret", "aria-hidden": "true" }, hasMore ? (isOpen ? "▾" : "▸") : ""), h("span", { of: "grow cut" }, it.name),
      h("span", { of: "count", title: "methods of its own" }, it.methods.size + it.kernel.length || ""), bar);
    this.rows.set(it.name, row);
    return row;
  }

  // The bars alone, as a tick tells.
  warm() {
    const most = Math.max(1, ...Object.values(image.heat));
    for (const [name, bar] of this.bars || []) {
      if (bar.sends === image.heat[name] && bar.most === most) continue;
      Object.assign(bar, { sends: image.heat[name], most });
      put(bar, heat(image.heat[name], most));
    }
  }

  select() {
    for (const [name, row] of this.rows || []) row.setAttribute("aria-selected", String(name === at.class));
    oneStop(this.box);
    this.move.disabled = !image.classes.get(at.class) || image.classes.get(at.class).isKernel;
    this.rows?.get(at.class)?.scrollIntoView({ block: "nearest" });
  }
}

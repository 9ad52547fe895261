// Curves over time, with a line at each edit, and mailboxes over time.

import { button, colour, h, g, many, put, setText, short } from "./dom.js";
import { line } from "./figures.js";
import { go, image } from "./image.js";

const WIDE = 600, HIGH = 150, POINTS = 300, PARTS = [0.25, 0.5, 0.75], MOST_EDITS = 12;
// Rows of chips at most, the height of one, and what is left at the right for the numbers.
const ROWS = 3, ROW = 21, OF_SCALE = 40;

// A pane with curves; each of `lists` has a name, its place among the numbers of a point, and a colour.
export class Chart {
  constructor(title, lists) {
    this.lists = lists.map(it => ({ ...it, now: h("span") }));
    this.picture = h("div", { of: "picture", role: "img" });
    const tint = it => h("i", { of: "cell", style: { background: it.colour } });
    this.title = title;
    this.root = h("section", { of: "pane", "aria-label": title },
      h("header", {}, h("h2", { of: "grow cut" }, title),
      h("span", { of: "legend" }, this.lists.map(it => h("span", {}, tint(it), `${it.name} `, it.now)))), this.picture);
  }

  draw() {
    const points = image.points.slice(-POINTS), values = this.lists.map(it => points.map(each => each[it.place]));
    const most = Math.max(1, ...values.flat()) * 1.15;
    this.lists.forEach((it, n) => setText(it.now, short(values[n].at(-1) ?? 0)));
    if (points.length < 2) return;
    this.picture.setAttribute("aria-label",
      `${this.title}: ${this.lists.map((it, n) => `${it.name} ${short(values[n].at(-1))}`).join(", ")}`);
    const still = { "vector-effect": "non-scaling-stroke" }, edits = this.edits(points);
    put(this.picture,
      h("div", { of: "curves" }, g("svg", { viewBox: `0 0 ${WIDE} ${HIGH}`, preserveAspectRatio: "none", "aria-hidden": "true" },
        PARTS.map(y => g("line", { of: "grid", x1: 0, x2: WIDE, y1: HIGH * y, y2: HIGH * y, ...still })),
        this.lists.map((it, n) => { const path = line(values[n], WIDE, HIGH, most);
          return [it.isArea && g("path", { d: `${path}L${WIDE} ${HIGH}L0 ${HIGH}Z`, fill: it.colour, "fill-opacity": 0.12 }),
          g("path", { d: path, fill: "none", stroke: it.colour, "stroke-width": 1.7, "stroke-dasharray": it.isDashed ? "5 3" : "none",
          ...still })]; }),
        edits.map(it => g("line", { of: "edit", x1: it.x * WIDE, x2: it.x * WIDE, y1: 0, y2: HIGH, stroke: "var(--red)",
          "stroke-dasharray": "4 3", ...still })))),
      this.chips(edits.slice(-MOST_EDITS)),
      h("div", { of: "scale", "aria-hidden": "true" },
        PARTS.map(y => h("span", { style: { top: `calc(${100 * y}% - 15px)` } }, short(most * (1 - y))))));
    this.place();
  }

  // A chip for each edit, the newest first. Rows keep them apart; one without room is left out, and its line stays.
  chips(edits) {
    const chip = it => h("span", { of: "chip cut", title: it.text }, it.text);
    const box = h("div", { of: "edits" }), made = edits.reverse().map(it => ({ x: it.x, root: chip(it) }));
    put(box, made.map(it => it.root));
    this.place = () => {
      const { clientWidth: wide, clientHeight: high } = box, most = Math.max(1, Math.min(ROWS, Math.floor(high / ROW) - 1));
      const rows = Array.from({ length: most }, () => []);
      for (const it of made.map(each => ({ ...each, width: each.root.offsetWidth }))) {
        const from = Math.max(4, Math.min(it.x * (wide - OF_SCALE) + 4, wide - it.width - OF_SCALE)), to = from + it.width + 4;
        const row = rows.findIndex(taken => taken.every(([a, b]) => to <= a || from >= b));
        it.root.hidden = row < 0;
        if (row < 0) continue;
        rows[row].push([from, to]);
        it.root.style.setProperty("left", `${from}px`);
        it.root.style.setProperty("bottom", `${6 + row * ROW}px`);
      }
    };
    return box;
  }

  // The edits that were seen while these points were.
  edits(points) {
    const first = points[0][0], last = points.at(-1)[0];
    const text = it => `${it.version} ${it.class_name}${it.selector ? ` › ${it.selector}` : ""}${it.what === "remove" ? " removed" : ""}`;
    return image.edits.filter(it => it.at >= first
      && it.at <= last).map(it => ({ x: (it.at - first) / Math.max(0.1, last - first), text: text(it) }));
  }
}

const FULL = 64, SHADES = 16;

// The longest mailboxes, a row each, a shade for how many messages waited at each second.
export class Boxes {
  constructor() {
    this.names = h("div", { of: "names" });
    this.canvas = h("canvas", { role: "img", "aria-label": "no message waited yet" });
    const mark = (name, text) => h("span", {}, h("i", { of: "cell", style: { background: `var(${name})` } }), text);
    this.root = h("section", { of: "pane", "aria-label": "Mailboxes over time" },
      h("header", {}, h("h2", { of: "cut" }, "Mailboxes over time"), h("span", { of: "dim grow cut" }, "the longest of three minutes"),
      h("span", { of: "legend" }, mark("--fresh", "0"), mark("--amber", "32"), mark("--red", "64"))),
      h("div", { of: "strips" }, this.names, h("div", { of: "picture" }, this.canvas)));
  }

  tell(boxes) {
    this.boxes = boxes;
    this.draw();
  }

  draw() {
    if (!this.boxes) return;
    const { clientWidth: wide, clientHeight: high } = this.canvas.parentNode;
    const boxes = this.boxes.slice(0, Math.max(3, Math.floor(high / 15)));
    const rows = Math.max(1, boxes.length);
    this.names.style.gridTemplateRows = `repeat(${rows}, minmax(0, 1fr))`;
    put(this.names, boxes.map(it => button("link cut", `${it.actor} ${it.class}`, () => go("actors", { actor: it.actor, object: 0 }))));
    this.canvas.setAttribute("aria-label",
      boxes.map(it => `actor ${it.actor}: ${many(it.waits.at(-1) ?? 0)} wait`).join(", ") || "no message waited");
    if (!wide || !high) return;
    Object.assign(this.canvas, { width: wide, height: high });
    const pen = this.canvas.getContext("2d"), row = high / rows;
    const half = (from, to, p) => `color-mix(in srgb, ${colour(from)} ${100 - 200 * p}%, ${colour(to)})`;
    const mix = p => (p < 0.5 ? half("--fresh", "--amber", p) : half("--amber", "--red", p - 0.5));
    const shades = Array.from({ length: SHADES + 1 }, (_, n) => mix(n / SHADES));
    boxes.forEach((it, n) => it.waits.forEach((waits, k) => {
      const x = Math.floor((k * wide) / it.waits.length), next = Math.floor(((k + 1) * wide) / it.waits.length);
      pen.fillStyle = shades[Math.min(SHADES, Math.ceil((waits / FULL) * SHADES))];
      pen.fillRect(x, Math.floor(n * row) + 1, next - x, Math.max(1, Math.floor(row) - 2));
    }));
  }
}

// Who posts to whom: a circle for each class, filled as the mailboxes of its actors are, and a line for what it posts.

import { curve, loop } from "./curves.js";
import { button, g, h, many, plural, put, short } from "./dom.js";
import { go } from "./image.js";
import { Labels } from "./labels.js";

// A picture that is narrower is drawn from above to below.
const FULL = 64, CLIENTS = "", NARROW = 520, APART = 76;
const HOW = "What each site posts and each actor accepts is counted by the image. To which of the classes that understand a message a site "
  + "posts is not; there it is shared out by what they accepted. A line begins at the class that has the method which posts.";
const name = it => (it === CLIENTS ? "clients" : it);

export class Graph {
  constructor() {
    this.how = "picture";
    this.places = new Map();
    this.known = new Map();
    this.body = h("div", { of: "picture" });
    this.seg = h("span", { of: "seg", role: "group", "aria-label": "How it is shown" },
      ["picture", "table"].map(it => button("", it, () => { this.how = it; this.draw(); }, { "data-how": it })));
    this.root = h("section", { of: "pane", "aria-label": "Who posts to whom" },
      h("header", {}, h("h2", {}, "Who posts to whom"), h("span", { of: "dim grow cut" }, "messages a second, by class"),
        h("span",
          { of: "chip cut",
          title: HOW }, "widths: in part inferred"), this.seg), this.body);
  }

  tell(graph) {
    this.graph = graph;
    this.draw();
  }

  draw() {
    for (const it of this.seg.children) it.setAttribute("aria-pressed", String(it.dataset.how === this.how));
    if (!this.graph) return;
    this.body.className = this.how === "table" ? "scroll" : "picture";
    if (!this.graph.edges.length && !this.graph.nodes.length) put(this.body,
      h("div", { of: "nothing" }, "Nothing was posted since this was opened."));
    else put(this.body, this.how === "table" ? this.table() : this.picture());
  }

  table() {
    const rows = [...this.graph.edges].sort((a, b) => b.rate - a.rate);
    return h("table", {}, h("thead", {},
      h("tr", {}, [["from"], ["to"], ["a second", "num"]].map(([text, of]) => h("th", { of, scope: "col" }, text)))),
      h("tbody", {}, rows.map(it => h("tr", {}, h("td", {}, name(it.from)), h("td", {}, it.to), h("td", { of: "num" }, short(it.rate))))));
  }

  // Clients stand at the left, and each class as far from them as its messages come. What was seen once keeps its place.
  place() {
    for (const it of this.graph.edges) this.known.set(`${it.from} ${it.to}`, it);
    for (const it of this.graph.nodes) if (!this.known.has(it.class)) this.known.set(it.class, { from: it.class, to: it.class });
    const wide = (this.wide = Math.max(300, this.body.clientWidth)), high = (this.high = Math.max(220, this.body.clientHeight)),
      key = [wide, high, this.known.size].join(" ");
    if (key === this.key) return;
    this.key = key;
    const known = [...this.known.values()].filter(it => it.from !== it.to),
      all = [...new Set([CLIENTS, ...[...this.known.values()].flatMap(it => [it.from, it.to])])].sort();
    // What gets messages of classes too stands behind those.
    const inner = new Set(known.filter(it => it.from !== CLIENTS).map(it => it.to)),
      outer = known.filter(it => it.from !== CLIENTS || !inner.has(it.to));
    const edges = outer.some(it => it.from === CLIENTS) ? outer : known, layer = new Map([[CLIENTS, 0]]);
    for (let k = 1; k <= 5; k++) for (const it of edges) if (layer.get(it.from) === k - 1 && !layer.has(it.to)) layer.set(it.to, k);
    for (const it of all) if (!layer.has(it)) layer.set(it, edges.some(each => each.to === it) ? 3 : 1);
    const used = [...new Set(layer.values())].sort((a, b) => a - b);
    this.places = new Map();
    // In a narrow picture the arrows lead down, in a wide one to the right.
    const isTall = wide < NARROW, long = isTall ? high : wide, across = isTall ? wide : high;
    used.forEach((k, column) => {
      const here = all.filter(it => layer.get(it) === k), step = (long - 2 * (isTall ? 44 : 70)) / Math.max(1, used.length - 1);
      // Many of one layer do not stand in one line.
      const apart = across / (here.length + 1), lines = Math.min(here.length, Math.ceil(APART / apart)), back = Math.min(APART, step / (lines + 1));
      here.forEach((it, n) => {
        const place = [(isTall ? 44 : 70) + column * step - (column ? (n % lines) * back : 0),
          apart * (n + 1) + (lines > 1 ? 0 : column % 2 ? 16 : -16)];
        this.places.set(it, isTall ? place.reverse() : place);
      });
    });
  }

  picture() {
    this.place();
    const { nodes, edges } = this.graph, by = new Map(nodes.map(it => [it.class, it])), clients = edges.some(it => it.from === CLIENTS);
    const radius = it => (it === CLIENTS ? 16 : 13 + Math.min(25, 5 * Math.log1p(by.get(it)?.actors ?? 1)));
    const tip = g("marker", { id: "tip", viewBox: "0 0 8 8", refX: 5, refY: 4, markerWidth: 9, markerHeight: 9,
      markerUnits: "userSpaceOnUse", orient: "auto" }, g("path", { d: "M0 0L8 4L0 8Z", fill: "var(--accent)" }));
    const said = edges.map(it => `${name(it.from)} to ${it.to} ${short(it.rate)}`).join(", ");
    const circles = [...(clients ? [CLIENTS] : []), ...nodes.map(it => it.class)].map(it => ({ of: it, place: this.places.get(it), r: radius(it) }));
    const arrows = edges.map(it => this.arrow(it, circles)), labels = new Labels(this.wide, this.high, circles, arrows);
    const beside = new Map(circles.map(({ of, place, r }) => [of, written(labels.ofCircle(linesOf(of, by.get(of)), place, r))]));
    return g("svg", { viewBox: `0 0 ${this.wide} ${this.high}`, role: "img", "aria-label": `messages a second: ${said}` },
      g("defs", {}, tip), arrows.map(it => it.root), clients && g("g", {}, this.clients(radius(CLIENTS)), beside.get(CLIENTS)),
      nodes.map(it => this.node(it, radius(it.class), beside.get(it.class))),
      arrows.map(it => labels.ofArrow(it.text, it.points)).filter(Boolean).map(written));
  }

  arrow({ from, to, rate }, circles) {
    const here = circles.find(it => it.of === from), there = circles.find(it => it.of === to), width = 0.9 + 1.5 * Math.log1p(rate) / 1.6;
    const { d, points } = from === to ? loop(here) : curve(here, there, circles.filter(it => it !== here && it !== there));
    const root = g("path", { of: "edge", d, "stroke-width": width.toFixed(1), "stroke-opacity": 0.5, "marker-end": "url(#tip)" },
      g("title", {}, `${name(from)} to ${to}: ${short(rate)} a second`));
    // The tip is wider than a thin line.
    return { root, points, width: Math.max(width, 8), text: short(rate) };
  }

  clients(r) {
    const [x, y] = this.places.get(CLIENTS);
    return [g("circle", { of: "bare", cx: x, cy: y, r }), g("circle", { of: "node clients", cx: x, cy: y, r })];
  }

  node(it, r, label) {
    const [x, y] = this.places.get(it.class), level = Math.min(1, it.waiting / Math.max(1, it.actors) / FULL), isCrowded = level > 0.5;
    return g("g", { of: "go", role: "link", tabindex: "0",
      "aria-label": `${it.class}: ${many(it.actors)} actors, ${many(it.waiting)} messages wait`,
      onclick: () => go("browse", { class: it.class, selector: undefined }),
      onkeydown: event => { if (event.key === "Enter") go("browse", { class: it.class, selector: undefined }); } },
      g("title", {}, linesOf(it.class, it).join(": ")),
      g("clipPath", { id: `in-${it.class}` }, g("circle", { cx: x, cy: y, r })), g("circle", { of: "bare", cx: x, cy: y, r }),
      g("rect", { x: x - r, y: y + r - 2 * r * level, width: 2 * r, height: 2 * r * level, "clip-path": `url(#in-${it.class})`,
        fill: isCrowded ? "var(--red)" : "var(--amber)", "fill-opacity": 0.6 }),
      g("circle", { of: `node ${isCrowded ? "crowded" : ""}`, cx: x, cy: y, r }), label);
  }
}

const linesOf = (of, it) => (it ? [of, `${plural(it.actors, "actor")}, ${many(it.waiting)} wait`] : [name(of)]);

const written = it => it.lines.map((text, n) =>
  g("text", { of: it.isStrong && n === 0 ? "strong" : "", x: it.x, y: it.y + 13 * n, "text-anchor": "middle" }, text));

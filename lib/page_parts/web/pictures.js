// The view of pictures: who posts to whom, how much is done a second, what waits, what ends by faults, and how much room is left.

import { button, duration, h, many, put } from "./dom.js";
import { hasPlaces, putFaults } from "./faults.js";
import { Boxes, Chart } from "./charts.js";
import { Graph } from "./graph.js";
import { at, go, image } from "./image.js";

const graph = new Graph(), boxes = new Boxes();
const failing = new Chart("Faults a second", [{ name: "turns that failed", place: 5, colour: "var(--red)", isArea: true }]);
const charts = [
  new Chart("Messages a second", [{ name: "turns", place: 2, colour: "var(--accent)", isArea: true },
    { name: "posts of clients", place: 1, colour: "var(--post)", isDashed: true }]),
  new Chart("Steps a second", [{ name: "steps", place: 3, colour: "var(--green)", isArea: true }]),
  failing,
  new Chart("Messages that wait", [{ name: "in all mailboxes", place: 4, colour: "var(--amber)", isArea: true }]),
];
const room = h("div", { of: "scroll" }), faults = h("div", { of: "scroll" });
const named = (title, body, more) => h("section", { of: "pane", "aria-label": title, id: title.toLowerCase() },
  h("header", {}, h("h2", { of: "grow" }, title), more), body);
const allFaults = button("link", "their actors", () => go("actors", { table: { ...at.table, only: "fault", first: 0, text: "" } }),
  { title: "The actors whose last turn ended with a fault" });
const left = h("div", { of: "lefts" }, graph.root, h("div", { of: "pair" }, named("Room", room), named("Faults", faults, allFaults)));
const right = h("div", { of: "rights" }, charts.map(it => it.root), boxes.root);

export function show(main) {
  put(main, left, right);
  draw();
  drawFaults();
}

// What is left of each thing that an image can have only so many of.
function drawRoom() {
  const it = image.figures;
  if (!it) return;
  const full = seconds => (seconds === null || seconds === undefined ? "" : `full in ${duration(seconds)}`);
  const rows = [["history", it.history, it.historyMost, full(it.historyFull)],
    ["edits of this run", 2048 - it.editsLeft, 2048, it.editsFull === null ? "" : full(it.editsFull)],
    ["edits of the image", it.edits, 4096, ""],
    ["names", it.names, 8192, ""], ["classes", it.classes, 1024, ""], ["actors", it.actors, 65536, ""], ["sessions", it.sessions, 64, ""]];
  put(room, h("table", {}, h("tbody", {},
    rows.map(([what, n, most, said]) => h("tr", { title: `${many(n)} of ${many(most)}` }, h("td", {}, what),
    h("td", { of: "of-bar" }, h("span", { of: "found" },
      h("i", { style: { width: `${Math.min(100, (100 * n) / most)}%`, background: n > 0.8 * most ? "var(--amber)" : "var(--accent)" } }))),
    h("td", { of: "num" }, many(n)), h("td", { of: "dim" }, said || `of ${many(most)}`))))));
}

function drawFaults() {
  allFaults.hidden = !image.faults.all.length;
  putFaults(faults);
}

function draw() {
  failing.root.hidden = !hasPlaces();
  for (const it of charts) it.draw();
  drawRoom();
}

export const recolour = () => boxes.draw();

export function tell(event) {
  draw();
  if (event.graph) graph.tell(event.graph);
  if (event.boxes) boxes.tell(event.boxes);
  if (event.faults || event.isAnew) drawFaults();
}

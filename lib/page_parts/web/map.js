// The map of all actors: a cell each, or of very many one for the few that share it. Colour is the state, and so is the shape.

import { colour, h, many, plural } from "./dom.js";
import { image } from "./image.js";

export const STATES = {
  turn: ["in a turn", "--accent"], waits: ["waits for a worker", "--amber"], idle: ["idle", "--idle"],
  fresh: ["never ran", "--fresh"], fault: ["ended by a fault", "--red"], closed: ["closed", "--faint"],
};
// In the order of the server's letters; each state has four, the last for those with most messages that wait.
const ORDER = ["fresh", "idle", "closed", "waits", "turn", "fault"];
const HIGH = 150, LEAST = 4, MOST = 13;

const state = letter => ORDER[Math.floor((letter.charCodeAt(0) - 65) / 4)];
const strength = letter => (letter.charCodeAt(0) - 65) % 4;

export class ActorMap {
  constructor(chosen) {
    this.letters = "";
    this.each = 1;
    this.canvas = h("canvas", { id: "map", height: HIGH, role: "img" });
    this.canvas.onclick = event => { const n = this.under(event); if (n !== null) chosen(n); };
    this.canvas.onmousemove = event => { const n = this.under(event); this.canvas.title = n === null ? "" : this.said(n); };
  }

  // How many cells there is room for.
  get room() { return Math.min(4000, Math.floor((this.canvas.clientWidth || 800) / LEAST) * Math.floor(HIGH / LEAST)); }

  said(n) { return this.each > 1
    ? `actors ${many(n)} to ${many(n + this.each - 1)}: ${STATES[state(this.letters[n / this.each])][0]} among them`
      : `actor ${n}: ${STATES[state(this.letters[n])][0]}`; }

  tell(letters, each, actor, counts) {
    const isAsDrawn = this.width === this.canvas.clientWidth && this.theme === document.documentElement.dataset.theme;
    if (letters === this.letters && each === this.each && actor === this.actor && isAsDrawn) return;
    Object.assign(this, { letters, each, actor });
    this.canvas.setAttribute("aria-label",
      `${plural(image.figures?.actors ?? 0,
      "actor")}: ${Object.entries(counts).map(([key, n]) => `${many(n)} ${STATES[key][0]}`).join(", ")}`);
    this.draw();
  }

  draw() {
    const { canvas, letters } = this, width = (this.width = canvas.clientWidth);
    if (!width) return;
    this.theme = document.documentElement.dataset.theme;
    let cell = Math.max(LEAST, Math.min(MOST, Math.floor(Math.sqrt((width * HIGH) / Math.max(1, letters.length)))));
    while (cell > LEAST && Math.ceil(letters.length / Math.floor(width / cell)) * cell > HIGH) cell--;
    this.cell = cell;
    this.columns = Math.floor(width / cell);
    canvas.width = width;
    canvas.height = Math.max(cell, Math.ceil(letters.length / this.columns) * cell);
    const pen = canvas.getContext("2d"),
      colours = Object.fromEntries(Object.entries(STATES).map(([key, [, name]]) => [key, colour(name)])), gap = cell > 4 ? 1 : 0;
    for (let n = 0; n < letters.length; n++) this.paint(pen, n, state(letters[n]), strength(letters[n]), cell - gap, colours);
    this.ring(pen);
  }

  paint(pen, n, of, waits, size, colours) {
    const x = (n % this.columns) * this.cell, y = Math.floor(n / this.columns) * this.cell;
    pen.globalAlpha = of === "waits" ? 0.4 + waits * 0.2 : 1;
    pen.fillStyle = colours[of];
    pen.fillRect(x, y, size, size);
    if (size < 6) return;
    // A mark in the cell tells the states apart without their colours.
    pen.globalAlpha = 1;
    pen.fillStyle = colour("--panel");
    if (of === "fault") { pen.beginPath(); pen.moveTo(x, y); pen.lineTo(x + size, y); pen.lineTo(x, y + size); pen.fill(); }
    else if (of === "turn") pen.fillRect(x + size / 2 - 1, y + size / 2 - 1, 2, 2);
    else if (of === "closed") pen.fillRect(x + 2, y + 2, size - 4, size - 4);
    else if (of === "fresh") pen.fillRect(x + 1, y + 1, size - 2, size - 2);
    else if (of === "waits") pen.fillRect(x, y, size, 1.5);
  }

  ring(pen) {
    if (this.actor === null || this.actor >= (image.figures?.actors ?? 0)) return;
    const n = Math.floor(this.actor / this.each);
    pen.globalAlpha = 1;
    pen.strokeStyle = colour("--ink");
    pen.lineWidth = 2;
    pen.strokeRect((n % this.columns) * this.cell, Math.floor(n / this.columns) * this.cell, this.cell - 1, this.cell - 1);
  }

  under(event) {
    const box = this.canvas.getBoundingClientRect(), scale = this.canvas.height / box.height;
    const n = Math.floor((event.clientX - box.left) / this.cell) + Math.floor(((event.clientY - box.top) * scale) / this.cell) * this.columns;
    return n < this.letters.length ? n * this.each : null;
  }
}

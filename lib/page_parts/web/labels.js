// Places for labels in a picture of circles and arrows: one that lies over none of them, and over no other label, as far as there is one.

import { colour } from "./dom.js";

// The height of a line, what is left free around a label, and how near one may come to the edge.
const LINE = 13, FREE = 2, EDGE = 2;
const pen = document.createElement("canvas").getContext("2d");

function widthOf(text, isStrong) {
  pen.font = `${isStrong ? "600 " : ""}11px ${colour("--text")}`;
  return pen.measureText(text).width;
}

// A label of some lines, the first of which may be strong, around a place: its box, and where its lines are written.
function label(lines, isStrong, x, y) {
  const wide = Math.max(...lines.map((it, n) => widthOf(it, isStrong && n === 0))), high = LINE * lines.length;
  return { lines, isStrong, x, y: y - high / 2 + 10, left: x - wide / 2, right: x + wide / 2, top: y - high / 2, bottom: y + high / 2 };
}

const meet = (a, b) => a.left < b.right + FREE && b.left < a.right + FREE && a.top < b.bottom + FREE && b.top < a.bottom + FREE;

export class Labels {
  // `circles` have a place and a radius, `arrows` points and a width.
  constructor(wide, high, circles, arrows) {
    Object.assign(this, { wide, high, circles, arrows, taken: [] });
  }

  // How much a label lies over what is there; 0 where it is free.
  over(it) {
    const isOut = it.left < EDGE || it.right > this.wide - EDGE || it.top < EDGE || it.bottom > this.high - EDGE;
    const circles = this.circles.filter(({ place: [x, y], r }) =>
      Math.hypot(Math.max(it.left - x, 0, x - it.right), Math.max(it.top - y, 0, y - it.bottom)) < r + FREE).length;
    const points = this.arrows.map(({ points: all, width }) => all.filter(([x, y]) => {
      const far = FREE + width / 2;
      return x > it.left - far && x < it.right + far && y > it.top - far && y < it.bottom + far;
    }).length).reduce((a, b) => a + b, 0);
    return 1000 * isOut + 100 * (circles + this.taken.filter(other => meet(it, other)).length) + points;
  }

  // The best of these, which is taken then; the first that is free.
  best(all) {
    let found = null;
    for (const it of all) {
      const over = this.over(it);
      if (!found || over < found.over) found = { ...it, over };
      if (!over) break;
    }
    return found;
  }

  // Beside a circle, with fewer lines where there is no room for all.
  ofCircle(lines, [x, y], r) {
    const beside = some => {
      const { right, left, top, bottom } = label(some, true, 0, 0), wide = (right - left) / 2 + r + 5, high = (bottom - top) / 2 + r + 4;
      return [[0, high], [wide, 0], [0, -high], [-wide, 0], [wide, r], [-wide, r], [wide, -r], [-wide, -r]]
        .map(([dx, dy]) => label(some, true, x + dx, y + dy));
    };
    const found = this.best([...beside(lines), ...beside(lines.slice(0, 1))]);
    this.taken.push(found);
    return found;
  }

  // Beside an arrow, near its middle; null where there is no room.
  ofArrow(text, points) {
    const all = [], { right, bottom } = label([text], false, 0, 0);
    for (const far of [3, 9, 15]) for (const part of [0.5, 0.4, 0.6, 0.3, 0.7, 0.2, 0.8]) for (const side of [-1, 1]) {
      const n = Math.round(part * (points.length - 1)), [x, y] = points[n], [a, b] = [points[Math.max(0, n - 1)], points[n + 1]];
      const long = Math.hypot(b[0] - a[0], b[1] - a[1]) || 1, nx = (side * (a[1] - b[1])) / long, ny = (side * (b[0] - a[0])) / long;
      const away = far + Math.abs(nx) * right + Math.abs(ny) * bottom;
      all.push(label([text], false, x + nx * away, y + ny * away));
    }
    const found = this.best(all);
    if (found.over) return null;
    this.taken.push(found);
    return found;
  }
}

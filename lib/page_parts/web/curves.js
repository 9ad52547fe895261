// An arrow between two circles, or from one to itself: as a path, and as points along it.

// How far the points are from each other.
const STEP = 4;

// The points of a curve of Bézier's at which `long` is cut into steps.
function along(points, long) {
  const count = Math.max(8, Math.ceil(long / STEP));
  return Array.from({ length: count + 1 }, (_, n) => at(points, n / count));
}

function at(points, t) {
  if (points.length === 1) return points[0];
  return at(points.slice(1).map(([x, y], n) => [points[n][0] + (x - points[n][0]) * t, points[n][1] + (y - points[n][1]) * t]), t);
}

// How much an arrow is bent, of what is usual; another one is tried where it would lead through a circle.
const BENDS = [1, -1, 2, -2, 3, -3, 5, -5];

// From a circle at a place to another one, around others; it ends before that one, where the tip of the arrow is.
export function curve(from, to, others) {
  const isFree = it => it.points.every(([x, y]) => others.every(({ place, r }) => Math.hypot(x - place[0], y - place[1]) > r + 3));
  const all = BENDS.map(it => () => bent(from, to, it));
  for (const made of all) { const it = made(); if (isFree(it)) return it; }
  return all[0]();
}

function bent({ place: [x1, y1], r: r1 }, { place: [x2, y2], r: r2 }, times) {
  const long = Math.hypot(x2 - x1, y2 - y1) || 1, ux = (x2 - x1) / long, uy = (y2 - y1) / long, bend = times * Math.min(34, long / 8);
  const a = [x1 + ux * r1, y1 + uy * r1], b = [x2 - ux * (r2 + 7), y2 - uy * (r2 + 7)],
    m = [(a[0] + b[0]) / 2 - uy * bend, (a[1] + b[1]) / 2 + ux * bend];
  return { d: `M${a}Q${m} ${b}`, points: along([a, m, b], long) };
}

// A loop above a circle.
export function loop({ place: [x, y], r }) {
  const ends = [[x - 12, y - r + 3], [x - 46, y - r - 48], [x + 46, y - r - 48], [x + 12, y - r + 1]];
  return { d: `M${ends[0]}C${ends.slice(1).join(" ")}`, points: along(ends, 120) };
}

// A source in colours, with the state and the count of its call site under each send.

import { h, many, short } from "./dom.js";

const RESERVED = new Set(["self", "super", "nil", "true", "false", "thisActor"]);
const TOKEN = /"[^"]*"?|#(?:[A-Za-z][A-Za-z0-9]*:?)+|#[-+*/\\<>=~&,]{1,2}|[A-Za-z][A-Za-z0-9]*(?::(?!=))?|:=|\d+|[-+*/\\<>=~&,]{1,2}|\s+|./gs;

// The tokens of a source, each with the class of its colour.
export function tokens(source) {
  return [...source.matchAll(TOKEN)].map(match => {
    const text = match[0], c = text[0];
    const of = c === '"' ? "c" : c === "#" ? "s" : RESERVED.has(text) ? "k" : /[A-Z]/.test(c) ? "C" : /\d/.test(c) ? "n" : "v";
    return { text, start: match.index, of };
  });
}

const NAMES = { empty: "never sent", mono: "one class", poly: "two to four classes", mega: "more than four classes", post: "posts" };

// What is said of a site in words.
export function told(site) {
  const [sends, own, cache, walk] = site.counts;
  if (site.kind === "post") return `${site.selector}: ${many(sends)} posts, each taken by the image`;
  const how = `${many(own)} by the site, ${many(cache)} by the lookup cache, ${many(walk)} by a walk`;
  return `${site.super ? "super " : ""}${site.selector}: ${NAMES[site.kind]}; ${many(sends)} sends, ${how}. Ctrl+click: who implements it`;
}

// The coloured text, a row for each line. `wrong` is { place, said }, and `now` the places at which a frame stands, with a `mark` of its own
// where that failed.
export function coloured(source, sites = [], { wrong = null, now = [], mark = "", isHidden = false } = {}) {
  const words = sites.flatMap((site, n) => site.words.map(([a, b], k) => ({ a, b, site, n, isFirst: k === 0 })));
  const end = wrong ? Math.max(wrong.place[1], wrong.place[0] + 1) : 0;
  const edges = [...new Set([...words.flatMap(it => [it.a, it.b]), ...now.flat(), ...(wrong ? [wrong.place[0], end] : [])])].sort((a,
    b) => a - b);
  const headEnd = source.search(/[\n|"]|$/);
  let row = h("span", { of: "row" });
  const root = h("div", { of: "back", "aria-hidden": isHidden ? "true" : null }, row);
  const say = () => row.append(h("span", { of: "said-here" }, wrong.said));
  for (const token of tokens(source)) {
    let from = token.start;
    const stop = from + token.text.length;
    while (from < stop) {
      let to = edges.find(it => it > from && it < stop) ?? stop;
      const line = source.indexOf("\n", from), isLineEnd = line >= 0 && line < to;
      if (isLineEnd) to = line;
      if (to > from) row.append(piece(source.slice(from, to), token.of + (from < headEnd ? " head1" : ""), from));
      if (isLineEnd) {
        if (wrong && wrong.place[0] <= line
          && wrong.place[0] >= source.lastIndexOf("\n",
          line - 1) + 1) { if (wrong.place[0] === line) row.append(h("span", { of: "wrong end" }, "\u200b")); say(); }
        root.append(row = h("span", { of: "row" }));
        to = line + 1;
      }
      from = to;
    }
  }
  if (wrong && wrong.place[0] >= source.lastIndexOf("\n") + 1) {
    if (wrong.place[0] >= source.length) row.append(h("span", { of: "wrong end" }, "\u200b"));
    say();
  }
  return root;

  function piece(text, of, from) {
    let it = h("span", { of }, text);
    const word = words.find(each => from >= each.a && from < each.b);
    if (word) {
      const count = (word.site.kind === "post" ? "✉ " : "") + short(word.site.counts[0]);
      it = h("span", { of: `site ${word.site.kind}`, "data-n": word.n, title: told(word.site) }, it,
        word.isFirst && h("span", { of: "tell" }, count));
    }
    if (wrong && from >= wrong.place[0] && from < end) it = h("span", { of: "wrong" }, it);
    return now.some(([a, b]) => from >= a && from < b) ? h("span", { of: `now ${mark}` }, it) : it;
  }
}

// What was typed moves the sends behind it, and drops those in it: the counts stay those of the version that runs.
export function moved(sites, old, now) {
  let a = 0, z = 0;
  const least = Math.min(old.length, now.length);
  while (a < least && old[a] === now[a]) a++;
  while (z < least - a && old[old.length - 1 - z] === now[now.length - 1 - z]) z++;
  const by = now.length - old.length, end = old.length - z;
  return sites
    .filter(it => it.words.every(([p, q]) => q <= a || p >= end))
    .map(it => ({ ...it, words: it.words.map(([p, q]) => (p >= end ? [p + by, q + by] : [p, q])) }));
}

// Counts stand below their sends where there is room, those that ask most for a look first.
const RANK = { mega: 0, poly: 1, post: 2, mono: 3, empty: 4 };
export function makeRoom(root) {
  const taken = [], all = [...root.querySelectorAll(".tell")];
  // Where nothing is in sight yet no place is taken.
  if (!root.offsetParent) return;
  for (const it of all) it.style.visibility = "";
  const rank = it => RANK[it.parentNode.classList[1]];
  const boxes = new Map(all.map(it => [it, it.getBoundingClientRect()]));
  for (const it of all.sort((a, b) => rank(a) - rank(b))) {
    const box = boxes.get(it);
    const meets = other => Math.abs(other.top - box.top) < 9 && other.left < box.right + 3 && box.left < other.right + 3;
    if (taken.some(meets)) it.style.visibility = "hidden";
    else taken.push(box);
  }
}

// A source that is only read.
export const reading = (source, sites, options = {}) => h("div", { of: "source small" }, coloured(source, sites, options));

// Small shapes for the states of call sites, and a bar for how much is sent: each state differs in shape, not in colour alone.

import { h, many } from "./dom.js";

export const KINDS = [["empty", "never sent"], ["mono", "one class"], ["poly", "2 to 4"], ["mega", "more"], ["post", "post"]];
const MOST = 9;

export function shapes(kinds) {
  const counted = KINDS.map(([kind, name]) => [kinds.filter(it => it === kind).length, name]).filter(([n]) => n);
  const said = counted.map(([n, name]) => `${n} ${name}`).join(", ");
  return h("span", { of: "shapes", role: "img", "aria-label": kinds.length ? `call sites: ${said}` : "sends nothing", title: said },
    kinds.slice(0, MOST).map(kind => h("i", { of: kind })), kinds.length > MOST && `+${kinds.length - MOST}`);
}

export const legend = () =>
  h("span", { of: "legend wide" }, KINDS.map(([kind, name]) => h("span", { of: "shapes" }, h("i", { of: kind }), name)));

export function heat(sends, most) {
  const part = sends ? Math.max(7, (100 * Math.log1p(sends)) / Math.log1p(Math.max(1, most))) : 0;
  return h("span", { of: "heat", title: `${many(sends || 0)} sends` }, h("i", { style: { width: `${part}%` } }));
}

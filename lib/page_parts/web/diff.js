// The lines of a text that are new in it, and those of another one that are gone.

import { h } from "./dom.js";

export function difference(old, now) {
  const a = old === null || old === undefined ? [] : old.split("\n"), b = now === null || now === undefined ? [] : now.split("\n");
  const length = Array.from({ length: a.length + 1 }, () => new Uint16Array(b.length + 1));
  for (let i = a.length - 1; i >= 0; i--) {
    for (let j = b.length - 1; j >= 0; j--) length[i][j] = a[i] === b[j]
      ? 1 + length[i + 1][j + 1] : Math.max(length[i + 1][j], length[i][j + 1]);
  }
  const rows = [];
  const row = (of, sign, text, said) => rows.push(h("div", { of }, said && h("span", { of: "unseen" }, said), `${sign} ${text}`));
  for (let i = 0, j = 0; i < a.length || j < b.length; ) {
    if (i < a.length && j < b.length && a[i] === b[j]) { row("", " ", a[i++]); j++; }
    else if (i < a.length && (j === b.length || length[i + 1][j] >= length[i][j + 1])) row("gone", "−", a[i++], "taken out: ");
    else row("new", "+", b[j++], "new: ");
  }
  return h("div", { of: "diff" }, rows);
}

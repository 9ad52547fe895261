// Lists and trees in which one goes by the arrow keys, and by the first letters of what is looked for.

// `chosen` is told of the item that is gone to; items are elements with the role of one. `more` may take a key first.
export function walkable(box, chosen, more = () => false) {
  let typed = "", at = 0;
  const items = () => [...box.querySelectorAll("[role=treeitem], [role=option]")].filter(it => !it.hidden);
  const to = it => { if (it) { chosen(it); it.focus({ preventScroll: false }); it.scrollIntoView({ block: "nearest" }); } };
  box.addEventListener("click", event => { const it = event.target.closest("[role=treeitem], [role=option]");
    if (it && !event.target.closest("button")) chosen(it, event); });
  box.addEventListener("keydown", event => {
    if (event.ctrlKey || event.metaKey || event.altKey) return;
    const all = items(), here = all.indexOf(document.activeElement.closest("[role=treeitem], [role=option]"));
    if (more(event, all[here])) { event.preventDefault(); return; }
    const next = { ArrowDown: here + 1, ArrowUp: here - 1, Home: 0, End: all.length - 1, PageDown: Math.min(all.length - 1, here + 12),
      PageUp: Math.max(0, here - 12) }[event.key];
    if (next !== undefined) { event.preventDefault(); to(all[next]); }
    else if (event.key.length === 1 && event.key !== " ") {
      typed = performance.now() - at < 900 ? typed + event.key : event.key;
      at = performance.now();
      const text = typed.toLowerCase(), from = here + (typed.length === 1 ? 1 : 0);
      to([...all.slice(from), ...all.slice(0, from)].find(it => it.dataset.text.toLowerCase().startsWith(text)));
    }
  });
}

// One item is in the order of the Tab key: the chosen one, or else the first.
export function oneStop(box) {
  const all = [...box.querySelectorAll("[role=treeitem], [role=option]")],
    chosen = all.find(it => it.getAttribute("aria-selected") === "true") || all[0];
  for (const it of all) it.tabIndex = it === chosen ? 0 : -1;
}

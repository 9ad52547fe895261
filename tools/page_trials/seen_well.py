"""Scripts that look at a page in a browser as readers of the screen and of pale letters would."""

# The texts that are seen whose contrast with what is behind them is under 4.5: colours are drawn, so that any way to write one is
# understood. Disabled buttons do not count, nor does the field whose ink is that of the coloured source behind it.
PALE = """
const pen = Object.assign(document.createElement('canvas'), { width: 1, height: 1 }).getContext('2d', { willReadFrequently: true });
const rgba = text => { pen.clearRect(0, 0, 1, 1); pen.fillStyle = text; pen.fillRect(0, 0, 1, 1); const d = pen.getImageData(0, 0, 1, 1).data; return [d[0], d[1], d[2], d[3] / 255]; };
const over = (top, below) => [0, 1, 2].map(k => top[k] * top[3] + below[k] * (1 - top[3]));
const behind = it => { const layers = []; for (let at = it; at; at = at.parentElement) { const c = rgba(getComputedStyle(at).backgroundColor); if (c[3] > 0) { layers.push(c); if (c[3] === 1) break; } } return layers.reverse().reduce((below, top) => over(top, below), [255, 255, 255]); };
const bright = c => { const [r, g, b] = c.map(v => { v /= 255; return v <= 0.03928 ? v / 12.92 : ((v + 0.055) / 1.055) ** 2.4; }); return 0.2126 * r + 0.7152 * g + 0.0722 * b; };
const found = [];
for (const it of document.querySelectorAll('body *')) {
  const own = [...it.childNodes].filter(n => n.nodeType === 3).map(n => n.data.trim()).join('');
  const style = getComputedStyle(it), box = it.getBoundingClientRect();
  if (!own || !box.width || !box.height || style.visibility === 'hidden' || it.closest(':disabled, .unseen, textarea, noscript, [hidden]') || !it.checkVisibility({ opacityProperty: true })) continue;
  const back = behind(it), ink = over(rgba(it instanceof SVGElement ? style.fill : style.color), back);
  const [a, b] = [bright(ink), bright(back)].sort((x, y) => y - x), contrast = (a + 0.05) / (b + 0.05);
  if (contrast < 4.5) found.push(`${it.tagName.toLowerCase()}.${it.getAttribute('class')} "${own.slice(0, 30)}": ${contrast.toFixed(2)}`);
}
return [...new Set(found)].slice(0, 12);
"""

# What one can use or look at that has no name for those who do not see it, and roles that stand outside the one to which they belong.
NAMELESS = """
const found = [];
const named = it => (it.getAttribute('aria-label') || it.getAttribute('aria-labelledby') || it.innerText || it.title || it.labels?.[0]?.innerText || '').trim();
for (const it of document.querySelectorAll('button, input, textarea, select, canvas, svg[role=img], [role=tree], [role=listbox], [role=table], [role=tablist], [role=img], section, dialog[open]')) {
  if (it.checkVisibility() && !named(it) && !it.closest('[aria-hidden=true]')) found.push(`no name: ${it.outerHTML.slice(0, 90)}`);
}
const inside = { treeitem: 'tree', option: 'listbox', tab: 'tablist', row: 'table', cell: 'row', columnheader: 'row' };
for (const [role, box] of Object.entries(inside)) for (const it of document.querySelectorAll(`[role=${role}]`)) if (!it.parentElement.closest(`[role=${box}]`)) found.push(`${role} outside a ${box}`);
for (const it of document.querySelectorAll('[aria-controls], [aria-labelledby]')) for (const name of ['aria-controls', 'aria-labelledby']) if (it.getAttribute(name) && !document.getElementById(it.getAttribute(name))) found.push(`${name} names nothing: ${it.getAttribute(name)}`);
const ids = [...document.querySelectorAll('[id]')].map(it => it.id);
for (const id of new Set(ids.filter((it, n) => ids.indexOf(it) !== n))) found.push(`two have the id ${id}`);
if (!document.documentElement.lang || !document.title) found.push('no language or title');
return [...new Set(found)].slice(0, 12);
"""

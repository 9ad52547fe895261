"""Scripts that look in a browser for what lies over something else, and for what is cut."""

# What is seen of each text and of each bar, curve and picture, as far as no box around it hides it. Told is what lies over another one,
# what is cut without a way to scroll there, and what scrolls to the side. Sources have rules of their own; names of the image may be
# shortened where they say so by dots.
SPOILT = """
const found = [], items = [], hides = style => style.overflowX !== 'visible' || style.overflowY !== 'visible' || style.contain.includes('paint');
const name = it => it.getAttribute('aria-label') || it.getAttribute('class') || it.id || it.tagName;
const seen = (it, { left, top, right, bottom }) => {
  for (let at = it; at && at !== document.body; at = at.parentElement) if (hides(getComputedStyle(at))) {
    const box = at.getBoundingClientRect();
    left = Math.max(left, box.left); right = Math.min(right, box.right); top = Math.max(top, box.top); bottom = Math.min(bottom, box.bottom);
  }
  return { left, top, right, bottom };
};
const add = (it, box, text) => { const part = seen(it, box); if (part.right - part.left > 1 && part.bottom - part.top > 1) items.push({ it, part, text }); return part; };
const isOfImage = it => it.closest('.item .cut, .rows .cut, .frame .cut, .names .cut, .edits .chip');
for (const it of document.querySelectorAll('#head *, #main *, #work *')) {
  if (!it.checkVisibility({ visibilityProperty: true }) || it.closest('.source, svg *')) continue;
  if (it.matches('.gauge, .bar, .found, .heat, .shapes, .strip, .figure svg, canvas, input, textarea')) add(it, it.getBoundingClientRect(), name(it));
  if (it.scrollWidth > it.clientWidth + 1 && it.clientWidth && getComputedStyle(it).overflowX === 'auto' && !it.matches('#under-body')) found.push(`${name(it)} scrolls to the side`);
  for (const node of it.childNodes) if (node.nodeType === 3 && node.data.trim() && !it.closest('.shapes')) {
    const range = document.createRange(), text = node.data.trim().slice(0, 40);
    range.selectNodeContents(node);
    const box = range.getBoundingClientRect(), part = add(it, box, text);
    const isCut = box.right > part.right + 1.5 || box.left < part.left - 1.5 || (!it.closest('.scroll, .frames, #cards, #names') && box.bottom > part.bottom + 3);
    // The table of the call sites scrolls to the side.
    if (isCut && !isOfImage(it) && !it.closest('#under-body')) found.push(`${text} is cut`);
  }
}
for (const it of document.querySelectorAll('input[placeholder]')) if (it.checkVisibility() && it.clientWidth < 50) found.push(`${it.placeholder} has ${it.clientWidth}`);
for (const [k, a] of items.entries()) for (const b of items.slice(k + 1)) {
  // A row that is scrolled goes under the head of its table.
  if (a.it === b.it || a.it.contains(b.it) || b.it.contains(a.it) || [a, b].some(it => it.it.closest('th')) && [a, b].some(it => it.it.closest('td'))) continue;
  const wide = Math.min(a.part.right, b.part.right) - Math.max(a.part.left, b.part.left), high = Math.min(a.part.bottom, b.part.bottom) - Math.max(a.part.top, b.part.top);
  if (wide > 1.5 && high > 3) found.push(`${a.text} lies over ${b.text}`);
}
return [...new Set(found)];
"""

# In the picture of who posts to whom: labels that lie over an arrow, a circle or another label, or stand out of the picture. With an
# argument only the numbers at the arrows are looked at.
LABELS = """
const svg = document.querySelector("section[aria-label='Who posts to whom'] svg"), found = [];
const inside = (it, x, y, far) => x > it.left - far && x < it.right + far && y > it.top - far && y < it.bottom + far;
const labels = [...svg.querySelectorAll('text')].map(it => {
  const { x, y, width, height } = it.getBBox();
  return { text: it.textContent, isRate: it.parentNode === svg, left: x, right: x + width, top: y, bottom: y + height };
});
const { width: wide, height: high } = svg.viewBox.baseVal;
for (const it of labels.filter(each => each.isRate || !arguments[0])) {
  if (it.left < 0 || it.top < 0 || it.right > wide || it.bottom > high) found.push(`${it.text} stands out of the picture`);
  for (const path of svg.querySelectorAll('path.edge')) {
    const far = Number(path.getAttribute('stroke-width')) / 2;
    for (let at = 0; at <= path.getTotalLength(); at += 1) {
      const { x, y } = path.getPointAtLength(at);
      if (inside(it, x, y, far)) { found.push(`${it.text} lies over ${path.querySelector('title')?.textContent ?? 'an arrow'}`); break; }
    }
  }
  for (const circle of svg.querySelectorAll('circle.node')) {
    const [x, y, r] = ['cx', 'cy', 'r'].map(name => Number(circle.getAttribute(name)));
    if (Math.hypot(Math.max(it.left - x, 0, x - it.right), Math.max(it.top - y, 0, y - it.bottom)) < r) found.push(`${it.text} lies over a circle`);
  }
  for (const other of labels) if (other !== it && it.left < other.right && other.left < it.right && it.top < other.bottom - 2 && other.top < it.bottom - 2) found.push(`${it.text} lies over ${other.text}`);
}
return { found: [...new Set(found)], names: labels.filter(it => !it.isRate).map(it => it.text), rates: labels.filter(it => it.isRate).length };
"""

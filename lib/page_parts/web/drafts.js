// What was typed and not installed yet stays in the tab, whatever becomes of the image, of its server or of the page.

const BEGIN = "actorimage-draft ";
const key = (name, selector) => `${BEGIN}${name} ${selector ?? ""}`;

// A draft has its `source`, and the `base` and `version` with which it began: "" and 0 of a new method.
export function draft(name, selector) {
  try {
    return JSON.parse(sessionStorage.getItem(key(name, selector)));
  } catch {
    return null;
  }
}

export function keep(name, selector, it) {
  if (it) sessionStorage.setItem(key(name, selector), JSON.stringify(it));
  else sessionStorage.removeItem(key(name, selector));
}

export const hasDraft = (name, selector) => sessionStorage.getItem(key(name, selector)) !== null;

// The selectors of a class of which there are drafts.
export function drafts(name) {
  const begin = key(name);
  return Object.keys(sessionStorage).filter(it => it.startsWith(begin) && it !== begin).map(it => it.slice(begin.length));
}

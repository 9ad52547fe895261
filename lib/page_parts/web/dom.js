// Elements, made of names and texts. Texts are set as texts: nothing of an image is ever read as HTML.

export const $ = selector => document.querySelector(selector);

function fill(it, inside) {
  for (const one of inside.flat(4)) if (one !== null && one !== undefined && one !== false) it.append(one);
  return it;
}

function dressed(it, attributes) {
  for (const [key, value] of Object.entries(attributes || {})) {
    if (key.startsWith("on")) it.addEventListener(key.slice(2), value);
    else if (key === "of") it.setAttribute("class", value);
    else if (key === "style") for (const [name, how] of Object.entries(value)) it.style.setProperty(name, how);
    else if (value !== false && value !== null && value !== undefined) it.setAttribute(key, value === true ? "" : value);
  }
  return it;
}

// An element. `of` is its class, and what begins with `on` is called at the event.
export const h = (name, attributes, ...inside) => fill(dressed(document.createElement(name), attributes), inside);
export const g = (name, attributes, ...inside) => fill(dressed(document.createElementNS("http://www.w3.org/2000/svg", name), attributes),
  inside);

// Puts these in place of what is in an element.
export function put(it, ...inside) {
  it.replaceChildren();
  return fill(it, inside);
}

// Sets a text where it is another one, so that a selection or a reader of the screen is not disturbed.
export function setText(it, text) {
  if (it.textContent !== text) it.textContent = text;
}

// A number in few letters, as 999, 12k or 4.5M.
export function short(n) {
  if (n < 9.95) return String(Math.round(n * 10) / 10);
  if (n < 1000) return String(Math.round(n));
  for (const unit of "kMGTP") {
    n /= 1000;
    if (n < 9.95) return n.toFixed(1) + unit;
    if (n < 999.5) return Math.round(n) + unit;
  }
  return Math.round(n) + "P";
}

export const many = n => Number(n).toLocaleString("en");
export const plural = (n, thing, things = thing + "s") => `${many(n)} ${Number(n) === 1 ? thing : things}`;
export const sum = list => list.reduce((a, b) => a + b, 0);
export const colour = name => getComputedStyle(document.documentElement).getPropertyValue(name).trim();
export const clock = seconds => new Date(seconds * 1000).toLocaleTimeString("en-GB");
export const aOrAn = name => (/^[AEIOU]/.test(name) ? "an " : "a ") + name;

export function duration(seconds) {
  if (seconds === null || seconds === undefined) return "";
  if (seconds < 90) return `${Math.round(seconds)} s`;
  if (seconds < 5400) return `${Math.round(seconds / 60)} min`;
  return seconds < 172800 ? `${Math.round(seconds / 3600)} h` : `${Math.round(seconds / 86400)} days`;
}

// A button that is read aloud as what it does.
export const button = (of, text, onclick, more = {}) => h("button", { of, type: "button", onclick, ...more }, text);

// Says something for a moment. What is to be read longer stays where it belongs.
export function toast(text, of = "", ...more) {
  const it = h("div", { of: `toast ${of}` }, h("span", {}, text), more);
  $("#toasts").append(it);
  setTimeout(() => it.remove(), of === "bad" ? 9000 : 5000);
  return it;
}

// The turns that ended with a fault, the newest first: from a row one comes to where it was.

import { button, clock, h, many, put } from "./dom.js";
import { go, image } from "./image.js";

// Whether the image tells where a turn failed.
export const hasPlaces = () => image.faults.count !== null;

// What the inspector opens; turns have other numbers behind another epoch.
const placeOf = ({ actor, turn, step = null, epoch = image.epoch }) => (hasPlaces() ? { actor, turn, step, epoch } : null);
export const showFault = it => go("actors", { actor: it.actor, object: 0, failure: placeOf(it) });

const row = it => h("button", { of: "item fault", type: "button", onclick: () => showFault(it), "data-key": `fault ${it.actor} ${it.turn}`,
  "aria-label": `${it.fault} in turn ${it.turn} of actor ${it.actor}, ${it.class}` },
  h("span", { of: "chip fault cut" }, `✕ ${it.fault}`), h("span", { of: "grow cut" }, `actor ${it.actor}, ${it.class}`),
  h("span", { of: "count" }, `turn ${it.turn}`), it.at && h("time", { of: "count" }, clock(it.at)));

// Puts the list into a box behind what else stands there. A row that has the focus keeps it, as long as it is listed.
export function putFaults(box, ...before) {
  const key = box.contains(document.activeElement) ? document.activeElement.dataset.key : null, place = box.scrollTop;
  put(box, before, list());
  box.scrollTop = place;
  if (key) box.querySelector(`[data-key="${CSS.escape(key)}"]`)?.focus({ preventScroll: true });
}

// How many there are of each name, and a row for each.
function list() {
  const { all, names, count } = image.faults;
  if (!all.length) return h("div", { of: "nothing" },
    hasPlaces() ? "No turn has ended with a fault yet." : "The last turn of no actor ended with a fault.");
  const sorted = Object.entries(names).sort((a, b) => b[1] - a[1]);
  const said = sorted.map(([name, n]) => `${name} ${many(n)}`).join(", ");
  const of = count > all.length ? `the newest ${many(all.length)} of ${many(count)}: ` : "";
  return [h("div", { of: "group cut", title: of + said }, of, said), all.map(row)];
}

// The button that opens where a turn failed.
export const whereButton = (actor, turn, key) => hasPlaces() && button("link", "where", () => showFault({ actor, turn }),
  { "data-key": key, "aria-label": `where turn ${turn} failed` });

// The figures that are always in sight, and the lamp that says whether an image is there.

import { $, clock, duration, g, h, many, plural, put, short } from "./dom.js";
import { hasPlaces } from "./faults.js";
import { go, image } from "./image.js";

const POINTS = 60;

// A curve as a path. `most` is the value at its top.
export function line(list, width, height, most, pad = 1) {
  const top = most || Math.max(1e-9, ...list) * 1.12, step = width / Math.max(1, list.length - 1);
  return list.map((v,
    n) => `${n ? "L" : "M"}${(n * step).toFixed(1)} ${(height - pad - (v / top) * (height - 2 * pad)).toFixed(1)}`).join("");
}

function spark(place, colour) {
  const list = image.points.slice(-POINTS).map(it => it[place]);
  if (list.length < 2) return g("svg", { viewBox: "0 0 70 22", "aria-hidden": "true" });
  const path = line(list, 70, 22, 0, 2);
  return g("svg", { viewBox: "0 0 70 22", preserveAspectRatio: "none", "aria-hidden": "true" },
    g("path", { d: `${path}L70 22L0 22Z`, fill: colour, "fill-opacity": 0.14 }),
    g("path", { d: path, fill: "none", stroke: colour, "stroke-width": 1.4 }));
}

const gauge = (part, isWarned) => h("div", { of: "gauge", "aria-hidden": "true" },
  h("i", { of: isWarned ? "warn" : "", style: { width: `${Math.min(100, 100 * part)}%` } }));

function one(id, what, unit, value, picture, hint) {
  return h("div", { of: "figure", title: hint || null, id: `figure-${id}` },
    h("div", { of: "what" }, what, h("span", { of: "faint" }, unit)), h("div", { of: "value" }, value), picture);
}

export function figures() {
  const it = image.figures;
  if (!it) return;
  const isIn = document.activeElement?.id === "figure-faults";
  const left = it.historyMost - it.history, full = it.history / it.historyMost, isFull = left < 10;
  put($("#figures"),
    one("posts", "posts of clients", "a second", short(it.posts), spark(1, "var(--accent)"), `${many(it.allPosts)} in all`),
    one("turns", "turns", "a second", short(it.turns), spark(2, "var(--accent)"), "messages that actors began, those of actors too"),
    one("steps", "steps", "a second", short(it.steps), spark(3, "var(--accent)"), `${many(it.allSteps)} in all`),
    one("waiting", "messages that wait", "now", short(it.waiting), spark(4, "var(--poly)"),
      `${many(it.waiting)} in the mailboxes of ${many(it.actors)} actors`),
    one("processors", "processors", plural(it.workers, "worker"), it.processors === null ? "–" : it.processors.toFixed(1),
      gauge((it.processors || 0) / Math.max(1, it.workers)), "processor time of the server, as the system counts it"),
    one("history", "history", isFull ? "have a checkpoint" : it.historyFull === null ? "" : `full in ${duration(it.historyFull)}`,
      isFull ? h("span", { of: "bad" }, "full") : `${full < 0.1 ? (100 * full).toFixed(1) : Math.floor(100 * full)}%`,
      gauge(full, full > 0.8), `${many(it.history)} items of ${many(it.historyMost)}, ${many(left)} left; a checkpoint empties it`),
    one("edits", "edits left", it.editsFull === null || it.editsFull > 86_400 ? "" : `none in ${duration(it.editsFull)}`,
      it.editsLeft ? many(it.editsLeft) : h("span", { of: "bad" }, "none"), gauge(1 - it.editsLeft / 2048, it.editsLeft < 200),
      `${many(it.edits)} in the image; 2,048 in a run of the program, 4,096 in an image`),
    hasPlaces() && faults());
  if (isIn) $("#figure-faults")?.focus();
}

function listFaults() {
  go("pictures");
  $("#faults").scrollIntoView({ block: "nearest" });
}

// How many turns have ended with a fault; the list of the newest is one step away.
function faults() {
  const { count, all } = image.faults, last = all[0];
  const said = `${plural(count, "turn")} ended with a fault since the server's start or the last checkpoint`;
  return h("button", { of: "figure", type: "button", id: "figure-faults", onclick: listFaults,
    title: last ? `${said}; the newest is ${last.fault} in turn ${last.turn} of actor ${last.actor}` : said },
    h("div", { of: "what" }, "faults", h("span", { of: "faint cut" }, last ? last.fault : "")),
    h("div", { of: count ? "value bad" : "value" }, short(count)));
}

const LAMPS = { there: "connected", lost: "no image", full: "the server is full" };

export function lamp() {
  const it = $("#lamp");
  it.className = `lamp ${image.state}`;
  const name = image.isFile && image.state === "there" ? "an image file, which was read" : LAMPS[image.state] || image.state;
  it.setAttribute("aria-label", name);
  it.title = image.said || name;
  document.body.classList.toggle("lost", image.state !== "there");
  const said = image.state === "there" ? "" : `${image.asOf ? `as of ${clock(image.asOf)}: ` : ""}${image.said}; tried again each second`;
  if ($("#as-of").textContent !== said) $("#as-of").textContent = said;
}

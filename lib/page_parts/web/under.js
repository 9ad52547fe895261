// What stands below a source: its call sites, its versions, who sends it, who implements it, and which actors are in it.

import { look } from "./ask.js";
import { difference } from "./diff.js";
import { aOrAn, button, h, many, put, short } from "./dom.js";
import { light } from "./editor.js";
import { at, go, image, implementors } from "./image.js";
import { legend, shapes } from "./shapes.js";

const TABS = { sites: "Call sites", versions: "Versions", senders: "Senders", implementors: "Implementors", running: "Actors in it" };
const CHIPS = { empty: "never sent", mono: "mono", poly: "poly", mega: "mega", post: "✉ post" };

export class Under {
  constructor(pane) {
    this.pane = pane;
    this.counts = {};
    this.before = null;
    this.rates = [];
    this.lists = {};
    this.tabs = Object.fromEntries(Object.entries(TABS).map(([key, name]) => [key, h("button", {
      role: "tab", type: "button", id: `under-${key}`, "aria-controls": "under-body", onclick: () => this.choose(key),
    }, name, h("span", { of: "count" }))]));
    this.body = h("div", { of: "scroll", role: "tabpanel", id: "under-body", tabindex: "0" });
    this.root = h("div", { of: "under" },
      h("nav", { "aria-label": "Of this method" }, h("div", { role: "tablist", "aria-label": "Of this method" }, Object.values(this.tabs)),
      legend()), this.body);
  }

  choose(key) {
    at.tab = key;
    this.show();
    this.tabs[key].focus();
  }

  // Another method, or another version of it, is in sight.
  open() {
    const told = this.pane.told;
    this.before = null;
    this.rates = [];
    this.counts = { sites: told.sites?.length ?? "", versions: told.versions.length };
    // Of a method that is gone nothing else is left.
    if (told.gone && !this.pane.hasText) at.tab = "versions";
    this.lists = {};
    this.tellImplementors();
    this.show();
    this.ask();
  }

  // Asks who sends the selector of what is in sight, and who has it; again where the classes have changed since.
  ask() {
    const { told } = this.pane;
    if (!told?.selector) return;
    this.asked = image.version;
    for (const key of ["senders", "implementors"]) look(key, { selector: told.selector }).then(it => {
      if (this.pane.told === told && it.ok) this.count(key, it);
    });
  }

  // A list is of one version of the classes, and of none before that of the method in sight.
  count(key, { ok, edits }) {
    if (edits < Math.max(this.pane.told.edits, this.lists[key]?.edits ?? 0)) return;
    this.lists[key] = { list: ok, edits };
    this.counts[key] = ok.length;
    if (at.tab === key) this.show();
    else this.head();
  }

  // What events have told of the classes: who has a selector is known here then, and who sends it is asked.
  tellClasses() {
    const { told } = this.pane;
    if (!told?.selector || image.version === this.asked) return;
    // Another image counts its versions anew.
    if (image.version < this.asked) { this.lists = {}; told.edits = 0; }
    this.tellImplementors();
    this.ask();
  }

  tellImplementors() {
    const { told } = this.pane;
    if (told.selector && image.version >= told.edits) this.count("implementors", { ok: implementors(told.selector), edits: image.version });
  }

  head() {
    for (const [key, it] of Object.entries(this.tabs)) {
      it.setAttribute("aria-selected", String(at.tab === key));
      it.tabIndex = at.tab === key ? 0 : -1;
      it.lastChild.textContent = this.counts[key] ?? "";
    }
  }

  show() {
    const told = this.pane.told;
    this.head();
    this.body.setAttribute("aria-labelledby", `under-${at.tab}`);
    if (!told) return;
    if (at.tab === "running") this.askRunning();
    else put(this.body, { sites: () => this.ofSites(), versions: () => this.ofVersions(), senders: () => this.ofSenders(),
      implementors: () => this.ofImplementors() }[at.tab]());
  }

  // What a tick tells of the sites.
  tell(told) {
    const now = performance.now(), counts = told.sites.map(it => it.counts[0]);
    if (this.before && this.before.counts.length === counts.length) {
      const seconds = (now - this.before.now) / 1000;
      this.rates = counts.map((it, n) => Math.max(0, it - this.before.counts[n]) / seconds);
    }
    this.before = { now, counts };
    this.counts.sites = counts.length;
    this.tabs.running.lastChild.textContent = this.counts.running = told.running;
    this.pane.told.sites = told.sites;
    if (at.tab === "sites") this.show();
    else if (at.tab === "running") this.askRunning();
  }

  ofSites() {
    const sites = this.pane.told.sites || [];
    if (!sites.length) return h("div", { of: "nothing" },
      this.pane.told.source === undefined ? "No method is there." : "This method sends nothing.");
    const heads = [["send"], ["state"], ["sends", "num"], ["a second", "num"], ["found by"], ["site", "num"], ["cache", "num"],
      ["walk", "num"]];
    return h("table", {}, h("thead", {}, h("tr", {}, heads.map(([name, of]) => h("th", { of, scope: "col" }, name)))),
      h("tbody", {}, sites.map((it, n) => this.ofSite(it, n))));
  }

  ofSite(it, n) {
    const [sends, site, cache, walk] = it.counts,
      parts = it.kind === "post" ? [["by-image", sends]] : [["by-site", site], ["by-cache", cache], ["by-walk", walk]];
    const bar = parts.filter(part => part[1] > 0).map(([of, k]) => h("i", { of, style: { width: `${(100 * k) / sends}%` } }));
    return h("tr", { "data-n": n, onmouseenter: () => light(n), onmouseleave: () => light(null) },
      h("td", { of: "code" }, it.super && h("span", { of: "k" }, "super "), it.selector),
      h("td", {}, h("span", { of: `chip ${it.kind}` }, shapes([it.kind]), CHIPS[it.kind])),
      h("td", { of: "num" }, many(sends)), h("td", { of: "num" }, this.rates[n] === undefined ? "" : short(this.rates[n])),
      h("td", {}, h("span", { of: "found" }, bar)), [site, cache, walk].map(k => h("td", { of: "num dim" }, many(k))));
  }

  ofVersions() {
    const { told } = this.pane, all = told.versions;
    if (!all.length) return h("div", { of: "nothing" }, "It was never written here.");
    return [...all].reverse().map((it, n) => {
      const before = all[all.length - 2 - n]?.source ?? null, isNow = n === 0 && it.source !== null;
      const end = isNow ? h("span", { of: "chip mono" }, "runs now")
        : it.source === null ? h("span", { of: "chip" }, "removed")
        : button("plain changes", "Bring back", () => this.pane.bringBack(told.class, told.selector, it),
          { "aria-label": `Bring back version ${it.version}` });
      return h("div", { of: "sect" }, h("h3", {}, `version ${it.version}`, end), it.source !== null && difference(before, it.source));
    });
  }

  ofSenders() {
    const rows = this.lists.senders?.list;
    if (!rows) return h("div", { of: "nothing" }, "…");
    if (!rows.length) return h("div", { of: "nothing" }, `No method sends ${this.pane.told.selector}.`);
    return rows.map(it => this.row(it.class, it.selector, shapes(it.kinds),
      h("span", { of: "count" }, it.posts ? "posts it" : many(it.sends))));
  }

  ofImplementors() {
    const rows = this.lists.implementors?.list;
    return !rows ? h("div", { of: "nothing" }, "…") : rows.map(it => this.row(it.class, this.pane.told.selector,
      h("span", { of: "count" }, it.isKernel ? "kernel" : "")));
  }

  row(name, selector, ...more) {
    return h("button", { of: "item", type: "button", onclick: () => go("browse", { class: name, selector }), style: { width: "100%" } },
      h("span", { of: "grow code cut", style: { "text-align": "left" } }, `${name} › ${selector}`), more);
  }

  async askRunning() {
    const told = this.pane.told, asked = await look("running", { class: told.class, selector: told.selector });
    if (this.pane.told !== told || at.tab !== "running" || !asked.ok) return;
    this.counts.running = asked.ok.length;
    const row = it => h("button", { of: "item", type: "button", style: { width: "100%" },
      onclick: () => go("actors", { actor: it.actor, object: 0 }) },
      h("span", { of: "grow", style: { "text-align": "left" } }, `actor ${it.actor}, ${aOrAn(it.class)}`),
        h("span", { of: "count" }, `turn ${it.turns ?? it.turn}`));
    put(this.body, asked.ok.length ? asked.ok.map(row) : h("div", { of: "nothing" },
      "No actor runs it at the moment; those in methods that it called are found in the inspector."));
  }
}

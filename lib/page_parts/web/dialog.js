// Questions that are asked before something is done, and forms for classes.

import { change } from "./ask.js";
import { $, button, h, put, toast } from "./dom.js";
import { image, slotsOf } from "./image.js";

// Shows a form; `done` gives what is wrong, or null where all is well. Resolves once it is closed.
function form(title, fields, act, done) {
  return new Promise(closed => {
    const dialog = $("#dialog"), said = h("div", { of: "said", role: "alert" });
    const end = ok => { dialog.close(); put(dialog); closed(ok); };
    const submit = async event => {
      event.preventDefault();
      const wrong = await done(Object.fromEntries(new FormData(event.target)));
      if (wrong) said.textContent = wrong;
      else end(true);
    };
    put(dialog, h("form", { method: "dialog", onsubmit: submit, "aria-labelledby": "dialog-title" },
      h("h2", { id: "dialog-title" }, title), fields, said,
      h("div", { of: "ends" }, button("plain", "Cancel", () => end(false)), h("button", { of: "main", type: "submit" }, act))));
    dialog.oncancel = () => end(false);
    dialog.showModal();
    (dialog.querySelector("input, select") || dialog.querySelector("button.main")).focus();
  });
}

export const confirmed = (title, text, act) => form(title, h("p", { style: { margin: 0 } }, text), act, async () => null);

const field = (name, label, more) => h("label", {}, label, h("input", { name, autocomplete: "off", spellcheck: "false", ...more }));

// The classes under which one can be put.
function classes(label, chosen, without) {
  const names = [...image.classes.values()].filter(it => (!it.isKernel || it.name === "Object")
    && it.name !== without).map(it => it.name).sort();
  return h("label", {}, label, h("select", { name: "above" }, names.map(it => h("option", { value: it, selected: it === chosen }, it))));
}

// Defines a class. Gives its name; null if none was defined.
export async function defineClass(above) {
  let name = null;
  const fields = [
    field("name", "Name", { required: true, placeholder: "Counter", pattern: "[A-Z][A-Za-z0-9]{0,63}",
      title: "a capital, then letters and digits" }),
    classes("Superclass", above),
    field("slots", "Instance variables", { placeholder: "count last" }),
  ];
  await form("Define a class", fields, "Define", async given => {
    const reply = await change("define",
      { name: given.name.trim(), above: given.above, slots: given.slots.split(/[\s|]+/).filter(Boolean) });
    if (reply.error) return reply.said;
    name = given.name.trim();
    toast(`class ${name}, version ${reply.ok.version}`);
    return null;
  });
  return name;
}

// Puts a class under another one, which must have the same instance variables as the one before.
export function reparentClass(name) {
  const it = image.classes.get(name), own = slotsOf(it.above).map(each => each.slot).join(" ");
  const text = h("p", { of: "dim", style: { margin: 0 } },
    own ? `Objects keep their variables, so the new superclass has to give it the same ones: ${own}.`
      : "Objects keep their variables, so the new superclass may have none, as the present one.");
  return form(`Put ${name} under another class`, [text, classes("Superclass", it.above, name)], "Put it there", async given => {
    const reply = await change("reparent", { class: name, above: given.above });
    if (reply.error) return reply.said;
    toast(`class ${name} under ${given.above}, version ${reply.ok.version}`);
    return null;
  });
}

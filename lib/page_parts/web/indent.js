// Tab in a source: it indents, and Shift+Tab takes that back. Behind Escape both leave the field, so that the keys keep nobody in it.

const UNIT = "  ";

export class Indent {
  constructor(field) {
    this.field = field;
    this.leaves = false;
    for (const name of ["input", "blur", "mousedown"]) field.addEventListener(name, () => { this.leaves = false; });
  }

  // Whether a key was taken.
  takes(event) {
    if (event.key === "Escape") this.leaves = true;
    else if (event.key !== "Tab" && event.key !== "Shift") this.leaves = false;
    if (event.key !== "Tab" || event.ctrlKey || event.altKey || event.metaKey || this.leaves || this.field.readOnly) return false;
    event.preventDefault();
    const { selectionStart: start, selectionEnd: end } = this.field;
    if (event.shiftKey) this.change(it => it.replace(/^(\t| {1,2})/, ""));
    else if (start !== end) this.change(it => (it ? UNIT + it : it));
    else document.execCommand("insertText", false, UNIT.slice((start - this.begin(start)) % UNIT.length));
    return true;
  }

  // Where the line begins that has a place in it.
  begin(place) { return this.field.value.lastIndexOf("\n", place - 1) + 1; }

  // Changes each line that the selection touches, as somebody who types it, so that it can be undone.
  change(how) {
    const { field } = this, { value, selectionStart: start, selectionEnd: end } = field, from = this.begin(start);
    const last = end > start && value[end - 1] === "\n" ? end - 1 : end, next = value.indexOf("\n", last), to = next < 0 ? value.length : next;
    const old = value.slice(from, to).split("\n"), now = old.map(how), moved = now[0].length - old[0].length;
    if (now.join() === old.join()) return;
    field.setSelectionRange(from, to);
    document.execCommand(now.join("") || now.length > 1 ? "insertText" : "delete", false, now.join("\n"));
    field.setSelectionRange(Math.max(from, start + moved), Math.max(from, end + field.value.length - value.length));
  }
}

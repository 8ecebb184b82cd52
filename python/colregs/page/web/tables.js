// Tables that filter, sort and show their rows by the hundred.
"use strict";
const PIECE = 100;

class Table {
  // columns: {title, of(row) the words or an element, by(row) what it sorts by, kind: "number" or "time"}
  constructor(section, columns, rows, more) {
    Object.assign(this, { columns, rows, shown: PIECE, sorted: null, down: false, choose: null, tests: [], onFilter() {} }, more || {});
    this.filtered = rows;
    this.tools = element("div", null, { class: "tools" });
    this.note = element("span", "", { class: "quiet" });
    this.table = element("table");
    this.body = element("tbody");
    this.head();
    const scroll = element("div", null, { class: "scroll" });
    this.button = element("button", "show more", { type: "button" });
    this.button.addEventListener("click", () => { this.shown += 5 * PIECE; this.draw(); });
    scroll.append(this.table);
    section.append(this.tools, scroll, this.button);
    if (this.words) this.addSearch();
    this.tools.append(this.note);
  }

  head() {
    const row = element("tr"), head = element("thead");
    this.columns.forEach((column, k) => {
      const cell = element("th", column.title, { class: column.kind || "", scope: "col", tabindex: "0" });
      const sort = () => { this.down = this.sorted === k && !this.down; this.sorted = k; this.filter(); };
      cell.addEventListener("click", sort);
      cell.addEventListener("keydown", (event) => { if (event.key === "Enter") sort(); });
      row.append(cell);
    });
    head.append(row);
    this.heads = [...row.children];
    this.table.append(head, this.body);
  }

  addSearch() {
    const search = element("input", null, { type: "search", placeholder: "name, MMSI, rule or kind", "aria-label": "filter" });
    let words = [];
    this.tests.push((row) => words.every((word) => this.textOf(row).includes(word)));
    search.addEventListener("input", () => { words = search.value.toLowerCase().split(/\s+/).filter(Boolean); this.filter(); });
    this.tools.append(search);
  }

  textOf(row) {
    if (row.text === undefined) row.text = this.words(row).toLowerCase();
    return row.text;
  }

  // A box to tick, which keeps the rows that pass the test.
  addBox(title, test) {
    const label = element("label"), box = element("input", null, { type: "checkbox" });
    box.addEventListener("change", () => this.filter());
    label.append(box, document.createTextNode(` ${title}`));
    this.tests.push((row) => !box.checked || test(row));
    this.tools.insertBefore(label, this.note);
  }

  filter() {
    this.filtered = this.rows.filter((row) => this.tests.every((test) => test(row)));
    if (this.sorted !== null) {
      const by = this.columns[this.sorted].by, sign = this.down ? -1 : 1;
      this.filtered.sort((a, b) => { const p = by(a), q = by(b); return sign * (p < q ? -1 : p > q ? 1 : 0); });
    }
    this.shown = PIECE;
    this.draw();
    this.onFilter(this.filtered);
  }

  draw() {
    const rows = this.filtered.slice(0, this.shown);
    this.body.replaceChildren(...rows.map((row) => this.row(row)));
    const every = counted(this.rows.length, "row"), found = this.filtered.length.toLocaleString("en");
    const all = this.filtered.length === this.rows.length ? every : `${found} of ${every}`;
    this.note.textContent = rows.length < this.filtered.length ? `${all}, the first ${rows.length} are shown` : all;
    this.button.hidden = rows.length === this.filtered.length;
    this.heads.forEach((head, k) => { head.classList.toggle("sorted", k === this.sorted); head.classList.toggle("down", k === this.sorted && this.down); });
  }

  row(row) {
    const made = element("tr");
    this.columns.forEach((column) => {
      const cell = element("td", null, { class: column.kind || "" }), value = column.of(row);
      cell.append(...[value].flat());
      made.append(cell);
    });
    if (this.choose) {
      made.classList.add("choose");
      made.classList.toggle("chosen", this.isChosen(row));
      made.tabIndex = 0;
      made.addEventListener("click", (event) => { if (event.target.tagName !== "A") this.choose(row); });
      made.addEventListener("keydown", (event) => { if (event.key === "Enter" && event.target === made) this.choose(row); });
    }
    if (this.mark) this.mark(made, row);
    return made;
  }
}

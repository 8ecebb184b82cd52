// The lists beside the map. Each entry is drawn again only if what it shows changed.
import { byId, date, distance, element, lasting, place, time } from "./words.js";

const MOST = 300;       // entries of a list that are drawn
const ORDER = new Intl.Collator();

// The rule's meaning in words, by the settings of the server.
function meaning(settings, rule) {
  const known = settings.rules[rule];
  return known ? known[1] : settings.formulas[rule] ? `formula: ${settings.formulas[rule]}` : rule;
}

function span(first, last, open) {
  return `${date(first)} ${time(first)} to ${time(last)} UTC (${lasting(last - first)}${open ? ", lasting" : ""})`;
}

// What a state of an alarm says, with its times and its delay.
function stateWords(alarm, { tick }) {
  const after = (at) => `${time(at)}, ${lasting(at - alarm.first - tick)} after the first step`;
  if (alarm.state === "withdrawn") return `withdrawn at ${time(alarm.withdrawn_at)}: later reports changed what the program says`;
  if (alarm.state === "preliminary") return `preliminary since ${after(alarm.expected_at)}`;
  const more = alarm.settled_to !== null && alarm.last > alarm.settled_to ? `, preliminary from ${time(alarm.settled_to)} on` : "";
  return `${alarm.settled_at ? `settled at ${after(alarm.settled_at)}` : "settled"}${more}`;
}

function noteWords({ note, at, acknowledged }) {
  return `${acknowledged ? "acknowledged" : "taken back"} ${date(at)} ${time(at)}${note ? `: ${note}` : ""}`;
}

function alarmEntry(alarm, settings) {
  const acknowledged = alarm.note && alarm.note.acknowledged;
  const types = [alarm.subject_type, alarm.other_type].map((type) => type || "type unknown").join(" and ");
  const rule = element("span", { class: "chip", title: meaning(settings, alarm.rule) }, alarm.rule);
  return element("li", { class: `${alarm.state}${acknowledged ? " acknowledged" : ""}`, tabindex: 0, "data-id": alarm.id, "data-state": alarm.state },
    element("div", { class: "head" }, element("span", { class: `chip ${alarm.state}` }, alarm.state), rule,
      element("span", { class: "names" }, `${alarm.subject_name} \u2192 ${alarm.other_name}`)),
    element("div", {}, meaning(settings, alarm.rule)),
    element("div", { class: "figures quiet" }, span(alarm.first, alarm.last, alarm.lasting)),
    element("div", { class: "figures quiet" }, stateWords(alarm, settings)),
    element("div", { class: "quiet" }, [types, place(alarm.position)].filter(Boolean).join("; ")),
    alarm.marks && alarm.marks.length ? element("div", {}, ...alarm.marks.map((mark) => element("span", { class: "chip mark" }, mark))) : null,
    alarm.note ? element("div", { class: "note" }, noteWords(alarm.note)) : null,
    element("div", { class: "actions" }, element("button", { type: "button", "data-do": "meeting" }, "Show the meeting"),
      element("button", { type: "button", "data-do": "acknowledge" }, acknowledged ? "Acknowledgement" : "Acknowledge"),
      element("a", { class: "button", href: `/api/alarms/${encodeURIComponent(alarm.id)}/case`, download: true }, "Make a case")));
}

function encounterEntry(one, settings, clock) {
  const side = (k) => element("div", {}, element("b", {}, one.names[k]), ` ${one.kinds[k] || "is not audited"}${one.duties[k] ? ` (${one.duties[k]})` : ""}`);
  const left = one.closest_at === null ? null : one.closest_at - clock;
  const nearest = one.closest === null ? "closest point unknown" : left > 0 ? `closest ${distance(one.closest)} in ${lasting(left)}` : "drawing apart";
  return element("li", { tabindex: 0, "data-id": one.id }, side(0), side(1),
    element("div", { class: "figures" }, `now ${distance(one.distance)}; ${nearest}`, element("span", { class: "quiet" }, " (computed, not proved)")),
    element("div", { class: "quiet figures" }, `since ${time(one.first)} UTC; least so far ${distance(one.least)}${one.at_rest ? `; at rest: ${one.at_rest}` : ""}`));
}

function rowEntry(row, settings) {
  const head = row.kind === "verdict"
    ? [element("span", { class: `chip ${row.value === "broken" ? "settled" : ""}`, title: meaning(settings, row.rule) }, `${row.rule} ${row.value}`)]
    : [element("span", { class: "chip" }, row.encounter.replace("_", " "))];
  return element("li", { tabindex: 0, "data-id": row.id }, element("div", { class: "head" }, ...head, `${row.subject_name} \u2192 ${row.other_name}`),
    element("div", { class: "figures quiet" }, `${row.begins.replace("T", " ").replace("Z", "")} to ${row.ends.slice(11, 19)} UTC${
      row.least === undefined ? "" : `; least ${distance(row.least)}`}${row.begins_before ? "; began before its window" : ""}${
      row.ends_after ? "; its end is not known" : ""}${row.doubt ? "; doubtful" : ""}`));
}

function vesselEntry(vessel, clock) {
  const figures = [vessel.speed === null ? "" : `${vessel.speed.toFixed(1)} kn`, vessel.course === null ? "" : `course ${Math.round(vessel.course)}\u00b0`,
    vessel.heading === null ? "" : `heading ${vessel.heading}\u00b0`].filter(Boolean);
  return element("li", { tabindex: 0, "data-id": vessel.mmsi }, element("div", { class: "head" }, vessel.name || String(vessel.mmsi)),
    element("div", { class: "quiet" }, [vessel.mmsi, vessel.type, vessel.length ? `${vessel.length} m` : "", vessel.status].filter(Boolean).join(", ")),
    element("div", { class: "figures quiet" }, [...figures, `${lasting(clock - vessel.time)} ago`].join(", "),
      element("span", { class: "seen" }, ` at ${time(vessel.time)} UTC`)));
}

// One list: which entries there are, in which order, and how each is drawn.
class List {
  constructor(name) {
    this.element = byId(`list-${name}`);
    this.count = byId(`count-${name}`);
    this.drawn = new Map();         // by the entry's name: its text as it was drawn, and the element
  }

  // Shows the entries. `key` returns the name of an entry, and `text` all that it shows.
  show(entries, key, text, entry, isShown) {
    this.count.textContent = entries.length;
    if (!isShown) return;
    const shown = entries.slice(0, MOST), wanted = new Set(shown.map((one) => String(key(one))));
    for (const [name, { made }] of this.drawn) if (!wanted.has(name)) { made.remove(); this.drawn.delete(name); }
    let before = null;
    for (const one of shown) {
      const name = String(key(one)), now = text(one), known = this.drawn.get(name);
      let made = known && known.made;
      if (!known || known.text !== now) made = this.draw(name, now, entry(one), made);
      if (!made.isConnected || made.previousElementSibling !== before) this.element.insertBefore(made, before ? before.nextElementSibling : this.element.firstElementChild);
      before = made;
    }
  }

  draw(name, text, made, before) {
    if (before) {
      made.classList.toggle("chosen", before.classList.contains("chosen"));
      const focused = before.contains(document.activeElement) ? document.activeElement.dataset.do || "" : null;
      before.replaceWith(made);
      if (focused !== null) (focused ? made.querySelector(`[data-do="${focused}"]`) : made).focus({ preventScroll: true });
    }
    this.drawn.set(name, { text, made });
    return made;
  }
}

export class Lists {
  constructor(settings) {
    this.settings = settings;
    this.open = "alarms";
    this.lists = Object.fromEntries(["alarms", "encounters", "rows", "vessels"].map((name) => [name, new List(name)]));
  }

  select(name) {
    this.open = name;
    for (const other of Object.keys(this.lists)) {
      this.lists[other].element.hidden = other !== name;
      byId(`tab-${other}`).setAttribute("aria-selected", String(other === name));
    }
  }

  show(store, filters) {
    const { lists, settings, open } = this;
    const alarms = [...store.alarms.values()].filter((alarm) => filters.alarm(store, alarm)).sort((a, b) => b.first - a.first || (a.id < b.id ? -1 : 1));
    lists.alarms.show(alarms, (alarm) => alarm.id, JSON.stringify, (alarm) => alarmEntry(alarm, settings), open === "alarms");
    const encounters = [...store.encounters.values()].filter((one) => filters.encounter(store, one));
    encounters.sort((a, b) => (a.closest ?? 1e9) - (b.closest ?? 1e9));
    const left = (one) => Math.round(((one.closest_at ?? 0) - store.clock) / 5);
    lists.encounters.show(encounters, (one) => one.id, (one) => JSON.stringify(one) + left(one), (one) => encounterEntry(one, settings, store.clock), open === "encounters");
    const rows = store.rows.filter((row) => filters.row(store, row)).reverse();
    lists.rows.show(rows, (row) => row.id, (row) => String(row.id), (row) => rowEntry(row, settings), open === "rows");
    const vessels = [...store.vessels.values()].filter((vessel) => filters.vessel(vessel));
    if (open === "vessels") vessels.sort((a, b) => ORDER.compare(a.name || "~", b.name || "~") || a.mmsi - b.mmsi);
    const words = (vessel) => `${vessel.time} ${vessel.name} ${vessel.status} ${vessel.type} ${Math.round((store.clock - vessel.time) / 30)}`;
    lists.vessels.show(vessels, (vessel) => vessel.mmsi, words, (vessel) => vesselEntry(vessel, store.clock), open === "vessels");
    const all = { alarms, encounters, rows, vessels }[open];
    byId("list-words").textContent = all.length > MOST ? `The first ${MOST} of ${all.length}; filters show others.` : all.length ? "" : "Nothing to list.";
  }

  // The elements of the open list, in order.
  entries() { return [...this.lists[this.open].element.children]; }
}

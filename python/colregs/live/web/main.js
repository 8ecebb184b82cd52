// The page: it joins the state, the map, the lists, the filters, the slider and the keys.
import { Connection } from "./connection.js";
import { askAcknowledgement, begin, showMeeting } from "./dialogs.js";
import { Filters } from "./filters.js";
import { Lists } from "./lists.js";
import { ChartMap } from "./map.js";
import { Past } from "./past.js";
import { STATES, statesOf } from "./states.js";
import { Store } from "./store.js";
import { byId, date, element, lasting, time } from "./words.js";

const KINDS = ["overtakes", "is overtaken", "meets head-on", "crosses, gives way", "crosses, stands on", "passes", "is not classed"];
const QUIET = 60;       // s without a line that the bar says
const KEYS = [["1 2 3 4", "alarms, encounters, verdicts, vessels"], ["J K", "next and previous entry"], ["Enter", "show the meeting, or the vessel on the map"],
  ["A", "acknowledge"], ["/", "filter by vessel"], ["R", "pairs at rest too"], ["[ ]", "a minute earlier, later"], ["L", "back to now"], ["F", "all vessels on the map"],
  ["N", "night or day"], ["?", "this page"], ["Esc", "close, or choose nothing"]];

const live = new Store(), chosen = { entry: null, vessels: new Set() };
let settings, filters, lists, map, past, states = new Map(), waits = false;

const shown = () => past.store || live;

function bar() {
  const { health, clock } = live;
  byId("clock").textContent = clock === null ? "no line yet" : `${date(clock)} ${time(clock)} UTC`;
  const faults = [health.fault, health.over && "the stream has ended", health.quiet > QUIET && `no line for ${lasting(health.quiet)}`,
    health.answer_fault && `no preliminary alarms: ${health.answer_fault}`].filter(Boolean);
  byId("health").textContent = faults.join("; ") || (health.lag === null || health.lag === undefined ? "" : `${lasting(health.lag)} behind this machine's clock`);
  byId("health").className = faults.length ? "bad" : "quiet";
  const store = shown(), still = [...store.alarms.values()].filter((alarm) => alarm.at_rest === "both").length;
  const met = [...store.encounters.values()].filter((one) => one.at_rest === "both").length;
  byId("at-rest").textContent = still || met ? `Pairs at rest: ${still} alarms and ${met} encounters ${filters.rest ? "shown" : "hidden"}.` : "";
  byId("filter-words").textContent = filters.words();
}

function show() {
  waits = false;
  const store = shown();
  states = statesOf(store);
  lists.show(store, filters);
  bar();
  past.fit();
  if (map) map.soon();
}

// Shows what changed soon, once for many changes.
function soon() {
  if (waits) return;
  waits = true;
  setTimeout(show, 100);
}

function stated(words) {
  byId("link").textContent = words;
  byId("link").className = `badge ${words === "connected" ? "good" : "bad"}`;
}

// Chooses an entry of the open list, and its vessels on the map.
function choose(entry, moves) {
  for (const other of document.querySelectorAll("li.chosen")) other.classList.remove("chosen");
  chosen.vessels = new Set();
  chosen.entry = null;
  if (entry) {
    entry.classList.add("chosen");
    chosen.entry = { list: lists.open, id: entry.dataset.id };
    const store = shown(), { id } = entry.dataset;
    const found = { alarms: store.alarms.get(id), encounters: store.encounters.get(id), rows: store.rows.find((row) => String(row.id) === id),
      vessels: store.vessels.get(Number(id)) }[lists.open];
    if (found) chosen.vessels = new Set(found.pair || [found.subject ?? found.mmsi, found.other].filter(Boolean));
    if (moves && map) map.show([...chosen.vessels].map((mmsi) => filters.placeOf(store, mmsi)));
  }
  if (map) map.soon();
}

function chosenAlarm() {
  return chosen.entry && chosen.entry.list === "alarms" ? shown().alarms.get(chosen.entry.id) : null;
}

function vesselChosen(vessel) {
  if (!vessel) { choose(null); return; }
  lists.select("vessels");
  show();
  const entry = lists.entries().find(({ dataset }) => dataset.id === String(vessel.mmsi));
  choose(entry);
  if (entry) entry.scrollIntoView({ block: "nearest" });
  chosen.vessels = new Set([vessel.mmsi]);
}

function act(what) {
  const alarm = chosenAlarm();
  if (!alarm) return;
  if (what === "meeting") showMeeting(alarm);
  if (what === "acknowledge") askAcknowledgement(alarm);
}

function step(by) {
  const entries = lists.entries(), at = entries.findIndex((entry) => entry.classList.contains("chosen"));
  const next = entries[Math.max(0, Math.min(entries.length - 1, at < 0 ? 0 : at + by))];
  if (!next) return;
  choose(next, true);
  next.focus({ preventScroll: true });
  next.scrollIntoView({ block: "nearest" });
}

function theme(name) {
  document.documentElement.dataset.theme = name;
  byId("theme").textContent = name === "night" ? "Day" : "Night";
  try { localStorage.setItem("theme", name); } catch { /* a browser may forbid it */ }
  if (map) map.recolour();
}

const turn = () => theme(document.documentElement.dataset.theme === "night" ? "day" : "night");

function firstTheme() {
  let stored = null;
  try { stored = localStorage.getItem("theme"); } catch { /* a browser may forbid it */ }
  theme(stored || (matchMedia("(prefers-color-scheme: dark)").matches ? "night" : "day"));
}

const select = (name) => { lists.select(name); choose(null); show(); };

const ON_KEY = {
  1: () => select("alarms"), 2: () => select("encounters"), 3: () => select("rows"), 4: () => select("vessels"),
  j: () => step(1), k: () => step(-1), a: () => act("acknowledge"), n: turn, l: () => past.end(), "[": () => past.move(-60), "]": () => past.move(60),
  "?": () => byId("help").showModal(), f: () => map && map.fit(shown()), Escape: () => choose(null),
  Enter: () => (chosenAlarm() ? act("meeting") : chosen.entry && map && map.show([...chosen.vessels].map((mmsi) => filters.placeOf(shown(), mmsi)))),
  r: () => { byId("filter-rest").click(); soon(); },
  "/": () => { byId("filters").open = true; byId("filter-vessel").focus(); },
};

function keys() {
  addEventListener("keydown", (event) => {
    const { target } = event, writes = /^(INPUT|TEXTAREA|SELECT)$/.test(target.tagName) && target.type !== "checkbox" && target.type !== "range";
    if (event.ctrlKey || event.metaKey || event.altKey || document.querySelector("dialog[open]")) return;
    if (writes) { if (event.key === "Escape") target.blur(); return; }
    if (event.key === "Enter" && /^(BUTTON|A|SUMMARY)$/.test(target.tagName)) return;
    const done = ON_KEY[event.key.length === 1 ? event.key.toLowerCase() : event.key];
    if (!done) return;
    event.preventDefault();
    done();
  });
}

function listen() {
  byId("side").addEventListener("click", (event) => {
    const entry = event.target.closest("li"), tab = event.target.closest("[data-list]");
    if (tab) select(tab.dataset.list);
    if (!entry || event.target.closest("a")) return;
    const button = event.target.closest("[data-do]");
    choose(entry, !button);
    if (button) act(button.dataset.do);
    else if (lists.open === "alarms") act("meeting");
  });
  byId("theme").addEventListener("click", turn);
  byId("help-button").addEventListener("click", () => byId("help").showModal());
  byId("area").addEventListener("click", () => { if (map) { byId("area").setAttribute("aria-pressed", "true"); map.askArea(); } });
}

function areaDrawn(bounds, isDone) {
  if (isDone) byId("area").setAttribute("aria-pressed", "false");
  filters.area = bounds;
  soon();
}

async function start() {
  settings = await (await fetch("/settings")).json();
  byId("title").textContent = document.title = settings.title;
  filters = new Filters(soon);
  filters.offer([...Object.keys(settings.rules), ...Object.keys(settings.formulas)], KINDS);
  lists = new Lists(settings);
  past = new Past(live, show);
  begin(KEYS, settings);
  if (settings.map && typeof L !== "undefined") {
    map = new ChartMap(settings, () => ({ store: shown(), states, filters, chosen: chosen.vessels }), vesselChosen, areaDrawn);
  } else byId("no-map").textContent = "Leaflet is not installed on the server (Debian's libjs-leaflet), so there is no map.";
  firstTheme();
  byId("legend").append(...STATES.flatMap(([name, words]) => {
    const dot = element("i");
    dot.style.background = `var(--${name})`;
    return [dot, words];
  }));
  listen();
  keys();
  new Connection(live, soon, stated);
}

start().catch((fault) => stated(`the page failed: ${fault.message}`));

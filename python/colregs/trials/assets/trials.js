"use strict";
const data = JSON.parse(document.getElementById("data").textContent);
const colours = ["#0072b2", "#d55e00", "#7b3294", "#8c564b", "#c79a00", "#cc3d8f", "#01665e"];
const states = { clear: "#9fb8c8", manoeuvring: "#0072b2", held: "#c79a00", none: "#b2182b", own_unready: "#555555", stale: "#999999" };
const byId = (name) => document.getElementById(name);
const breachColour = "#111111";
let run = null, step = 0, timer = null;

function cell(row, words, kind, className) {
  const made = document.createElement(kind || "td");
  made.textContent = words;
  if (className) made.className = className;
  row.appendChild(made);
}

function fillGroups() {
  const table = byId("groups"), head = table.insertRow();
  for (const words of ["kind", "others", "runs", "collisions", "domains", "least", "1/4", "1/2", "3/4", "replans", "none", "none %", "held", "lapsed", "escapes",
    "broke", "broke %", "with a plan", "rules", "way lost (m)", "plan (ms)", "longest"]) cell(head, words, "th");
  data.groups.forEach((g, k) => {
    const row = table.insertRow(), times = data.times[k];
    cell(row, g.kind);
    cell(row, g.others || "");
    cell(row, g.runs);
    cell(row, g.collisions, "td", g.collisions ? "bad" : "");
    cell(row, g.domains, "td", g.domains ? "bad" : "");
    for (const value of g.least.slice(0, 4)) cell(row, Math.round(value));
    for (const value of [g.replans, g.none, g.none_share, g.held, g.lapsed, g.escapes, g.broke, g.broke_share, g.planned]) cell(row, value);
    cell(row, Object.entries(g.rules).map(([rule, count]) => rule + " " + count).join(", "), "td", "words");
    for (const value of [g.way_lost, 1000 * times.median, 1000 * times.greatest]) cell(row, Number.isFinite(value) ? Math.round(value) : "");
  });
}

function fillLegend() {
  const place = byId("legend"), used = new Set(run.states.map(([, state]) => state));
  place.replaceChildren();
  const add = (colour, words) => {
    const square = document.createElement("i"), item = document.createElement("span");
    square.style.background = colour;
    item.append(square, words);
    place.appendChild(item);
  };
  for (const [state, colour] of Object.entries(states)) if (used.has(state)) add(colour, state);
  if (run.broken.length) add(breachColour, "a rule is broken (line below)");
}

function nearestStep() {
  const least = run.places.map((fix, i) => Math.min(...fix.slice(1).map((_, k) => apart(i, k + 1))));
  return least.indexOf(Math.min(...least));
}

function bounds() {
  let west = Infinity, east = -Infinity, south = Infinity, north = -Infinity;
  for (const fix of run.places) for (const [x, y] of fix) {
    west = Math.min(west, x); east = Math.max(east, x); south = Math.min(south, y); north = Math.max(north, y);
  }
  const side = 1.1 * Math.max(east - west, north - south, 1000);
  return { x: (west + east - side) / 2, y: (south + north - side) / 2, side };
}

function drawMap() {
  const canvas = byId("map"), pen = canvas.getContext("2d"), size = canvas.width, box = bounds(), scale = size / box.side;
  const at = ([x, y]) => [(x - box.x) * scale, size - (y - box.y) * scale];
  pen.clearRect(0, 0, size, size);
  run.radii.forEach((radius, k) => {
    pen.strokeStyle = colours[k % colours.length];
    for (const last of [run.places.length - 1, step]) {
      pen.globalAlpha = last === step ? 1 : 0.25;
      pen.lineWidth = k === 0 ? 2.2 : 1.4;
      pen.beginPath();
      for (let i = 0; i <= last; i++) pen.lineTo(...at(run.places[i][k]));
      pen.stroke();
    }
    pen.globalAlpha = 1;
    const [x, y] = at(run.places[step][k]);
    pen.fillStyle = pen.strokeStyle;
    pen.beginPath(); pen.arc(x, y, 4, 0, 7); pen.fill();
    if (radius) { pen.lineWidth = 1; pen.beginPath(); pen.arc(x, y, radius * scale, 0, 7); pen.stroke(); }
    pen.font = "12px Helvetica, Arial, sans-serif";
    pen.fillText(run.names[k], Math.min(x + 7, size - 70), y - 6);
  });
  const mile = [1000, 2000, 5000, 10000].find((length) => length * scale > 60) || 10000;
  pen.strokeStyle = pen.fillStyle = "#222222"; pen.lineWidth = 2;
  pen.beginPath(); pen.moveTo(14, size - 14); pen.lineTo(14 + mile * scale, size - 14); pen.stroke();
  pen.fillText(mile / 1000 + " km", 14, size - 20);
}

function apart(i, k) {
  const [own, other] = [run.places[i][0], run.places[i][k]];
  return Math.hypot(own[0] - other[0], own[1] - other[1]);
}

function drawDistance() {
  const canvas = byId("distance"), pen = canvas.getContext("2d"), left = 54, top = 12, wide = canvas.width - left - 12, high = canvas.height - top - 44;
  const last = run.places.length - 1, most = 6000, across = (i) => left + wide * i / Math.max(1, last), up = (m) => top + high * (1 - Math.min(m, most) / most);
  pen.clearRect(0, 0, canvas.width, canvas.height);
  pen.font = "12px Helvetica, Arial, sans-serif";
  pen.lineWidth = 1;
  for (let m = 0; m <= most; m += 1000) {
    pen.strokeStyle = "#e3e8ec"; pen.fillStyle = "#555555";
    pen.beginPath(); pen.moveTo(left, up(m)); pen.lineTo(left + wide, up(m)); pen.stroke();
    pen.fillText(m + " m", 8, up(m) + 4);
  }
  for (let k = 1; k < run.names.length; k++) {
    pen.strokeStyle = colours[k % colours.length]; pen.lineWidth = 1.6;
    pen.beginPath();
    for (let i = 0; i <= last; i++) pen.lineTo(across(i), up(apart(i, k)));
    pen.stroke();
    pen.lineWidth = 1; pen.setLineDash([4, 4]);
    pen.beginPath(); pen.moveTo(left, up(run.radii[k])); pen.lineTo(left + wide, up(run.radii[k])); pen.stroke(); pen.setLineDash([]);
  }
  run.states.forEach(([second, state], n) => {
    const end = n + 1 < run.states.length ? run.states[n + 1][0] : last * run.every;
    pen.fillStyle = states[state] || "#000000";
    pen.fillRect(across(second / run.every), top + high + 8, across(end / run.every) - across(second / run.every), 12);
  });
  run.broken.forEach((breach) => {
    pen.fillStyle = breachColour;
    pen.fillRect(across(breach.first / run.every), top + high + 24, Math.max(2, across(breach.last / run.every) - across(breach.first / run.every)), 6);
  });
  pen.strokeStyle = "#222222"; pen.beginPath(); pen.moveTo(across(step), top); pen.lineTo(across(step), top + high + 30); pen.stroke();
}

function fillOthers() {
  const table = byId("others");
  table.replaceChildren();
  const head = table.insertRow();
  for (const words of ["vessel", "length (m)", "domain (m)", "now (m)", "least (m)"]) cell(head, words, "th");
  for (let k = 1; k < run.names.length; k++) {
    const row = table.insertRow(), all = run.places.map((_, i) => apart(i, k));
    for (const value of [run.names[k], run.lengths[k], run.radii[k], Math.round(all[step]), Math.round(Math.min(...all))]) cell(row, value);
  }
}

function stateAt(second) {
  let found = null;
  for (const entry of run.states) if (entry[0] <= second) found = entry;
  return found;
}

function show() {
  const second = step * run.every, found = stateAt(second);
  byId("clock").textContent = second + " s" + (found ? ": " + found[1] + ", " + found[2].toFixed(1) + "°, " + found[3].toFixed(1) + " kn" : "");
  drawMap(); drawDistance(); fillOthers();
}

function choose(number) {
  run = data.runs[number]; step = nearestStep();
  byId("slider").max = run.places.length - 1; byId("slider").value = step;
  for (const [k, button] of [...document.querySelectorAll("#runs button")].entries()) button.setAttribute("aria-pressed", String(k === number));
  byId("words").textContent = run.words;
  fillLegend();
  show();
}

function play() {
  if (timer) { clearInterval(timer); timer = null; byId("play").textContent = "Play"; return; }
  byId("play").textContent = "Stop";
  timer = setInterval(() => {
    step = step + 1 < run.places.length ? step + 1 : 0;
    byId("slider").value = step;
    show();
  }, 60);
}

function polar(title, values, colour, words) {
  const size = 460, middle = size / 2, ns = "http://www.w3.org/2000/svg", svg = document.createElementNS(ns, "svg");
  const add = (tag, more, text) => {
    const made = document.createElementNS(ns, tag);
    for (const [key, value] of Object.entries(more)) made.setAttribute(key, value);
    if (text !== undefined) made.textContent = text;
    svg.appendChild(made);
    return made;
  };
  svg.setAttribute("width", size); svg.setAttribute("height", size + 26); svg.setAttribute("role", "img"); svg.setAttribute("aria-label", title);
  const rings = data.crossing.ratios.length, inner = 40, ring = (middle - 46 - inner) / rings;
  const at = (radius, angle) => [middle + radius * Math.sin(angle * Math.PI / 180), middle - radius * Math.cos(angle * Math.PI / 180)].map((v) => v.toFixed(1)).join(" ");
  for (const one of values) {
    const near = inner + ring * data.crossing.ratios.indexOf(one.ratio), far = near + ring, a = one.angle - 5, b = one.angle + 5;
    const wedge = add("path", { d: `M${at(near, a)}L${at(far, a)}A${far} ${far} 0 0 1 ${at(far, b)}L${at(near, b)}A${near} ${near} 0 0 0 ${at(near, a)}Z`,
      fill: colour(one), stroke: "#ffffff", "stroke-width": 0.6 });
    const hint = document.createElementNS(ns, "title");
    hint.textContent = words(one);
    wedge.appendChild(hint);
  }
  for (let angle = 0; angle < 360; angle += 30) {
    const [x, y] = at(middle - 24, angle).split(" ");
    add("text", { x, y: Number(y) + 4, "text-anchor": "middle", "font-size": 11, fill: "#222222" }, angle + "°");
  }
  add("text", { x: middle, y: size + 18, "text-anchor": "middle", "font-size": 13, fill: "#222222" }, title);
  return svg;
}

function fillPolar() {
  if (!data.crossing) return;
  const place = byId("polar"), head = document.createElement("h2"), words = document.createElement("p"), box = document.createElement("div");
  head.textContent = "Crossing angles by ratios of speed";
  words.className = "quiet";
  words.textContent = "Angle: the other's course against own ship's. Rings, from the middle outwards: her speed against own ship's, " +
    data.crossing.ratios.join(", ") + ". Left: the least distance, from red (" + data.crossing.nearest + " m or less) to blue (3000 m or more). " +
    "Right: the first turn, green to starboard and red to port, darker if larger; grey: she only changed speed, or kept on.";
  box.className = "run";
  box.appendChild(polar("Least distance", data.crossing.values, (one) => {
    const part = Math.max(0, Math.min(1, (one.least - data.crossing.nearest) / (3000 - data.crossing.nearest)));
    return `hsl(${Math.round(220 * part)} 70% 55%)`;
  }, (one) => `${one.angle}°, ${one.ratio}: ${Math.round(one.least)} m`));
  box.appendChild(polar("First turn", data.crossing.values, (one) => one.turn === null ? "#d5dade" :
    `hsl(${one.turn > 0 ? 150 : 0} 60% ${Math.round(75 - Math.min(90, Math.abs(one.turn)) / 2)}%)`,
  (one) => `${one.angle}°, ${one.ratio}: ${one.turn === null ? "no turn" : one.turn + "°"}`));
  place.append(head, words, box);
}

byId("about").textContent = data.about;
fillGroups();
fillPolar();
data.runs.forEach((one, k) => {
  const item = document.createElement("li"), button = document.createElement("button");
  button.type = "button"; button.textContent = one.title;
  button.addEventListener("click", () => choose(k));
  item.appendChild(button); byId("runs").appendChild(item);
});
byId("slider").addEventListener("input", () => { step = Number(byId("slider").value); show(); });
byId("play").addEventListener("click", play);
if (data.runs.length) choose(0);

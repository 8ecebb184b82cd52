// What the page holds: the case, decoded, and the words and numbers that all parts share.
"use strict";
const HELD = JSON.parse(document.getElementById("case").textContent);
const MILE = 1852;
const PAIR_COLOURS = ["#0b5cad", "#c2410c"];

function sums(deltas, part) {
  let value = 0;
  return Float64Array.from(deltas, (more) => (value += more) / part);
}

// A vessel's reports: seconds after the start, metres, 1/10 knot and 1/10 degree; below 0 is what no report told.
function tracked(vessel) {
  const [times, xs, ys, speeds, courses] = vessel.reports.length ? vessel.reports : [[], [], [], [], []];
  return { times: sums(times, 1), xs: sums(xs, 10), ys: sums(ys, 10), speeds: sums(speeds, 1), courses: sums(courses, 1), parts: new Set(vessel.parts) };
}

const TRACKS = HELD.vessels.map(tracked);
HELD.vessels.forEach((vessel) => { vessel.reports = vessel.count; });

function latLng(x, y) {
  const [longitude, latitude, east, north] = HELD.plane;
  return [(latitude + y * north) / 600000, (longitude + x * east) / 600000];
}

// The number of the last report at or before a time, or -1.
function before(times, seconds) {
  let low = 0, high = times.length;
  while (low < high) {
    const middle = (low + high) >> 1;
    if (times[middle] <= seconds) low = middle + 1; else high = middle;
  }
  return low - 1;
}

// Her place at a time, straight between two reports of one part of her track, or null.
function placeAt(track, seconds) {
  const k = before(track.times, seconds);
  if (k < 0) return null;
  if (track.times[k] === seconds) return [track.xs[k], track.ys[k]];
  if (k + 1 >= track.times.length || track.parts.has(k + 1)) return null;
  const part = (seconds - track.times[k]) / (track.times[k + 1] - track.times[k]);
  return [track.xs[k] + (track.xs[k + 1] - track.xs[k]) * part, track.ys[k] + (track.ys[k + 1] - track.ys[k]) * part];
}

// The headings that a vessel reported, each from its time on; below 0 is none.
const HEADINGS = HELD.vessels.map((vessel) => ({ times: sums(vessel.headings[0], 1), values: sums(vessel.headings[1], 1) }));

// Metres a second east and north, by the way from one report to the next; null where she is not seen.
function motionAt(track, seconds) {
  const k = before(track.times, seconds);
  if (k < 0 || !placeAt(track, seconds)) return null;
  const first = k + 1 < track.times.length && !track.parts.has(k + 1) ? k : k - 1;
  if (first < 0 || track.parts.has(first + 1)) return null;
  const time = track.times[first + 1] - track.times[first];
  return [(track.xs[first + 1] - track.xs[first]) / time, (track.ys[first + 1] - track.ys[first]) / time];
}

// How near two come if both keep course and speed, in metres, and in how many seconds, below 0 if that is past; null where one is not seen.
function approach(pair, seconds) {
  const [p, q] = pair.map((number) => placeAt(TRACKS[number], seconds)), [u, v] = pair.map((number) => motionAt(TRACKS[number], seconds));
  if (!p || !q || !u || !v) return null;
  const x = q[0] - p[0], y = q[1] - p[1], across = v[0] - u[0], up = v[1] - u[1], square = across * across + up * up;
  const time = square < 1e-4 ? 0 : -(x * across + y * up) / square, ahead = Math.max(0, time);
  return { least: Math.hypot(x + across * ahead, y + up * ahead), time };
}

function two(number) { return String(number).padStart(2, "0"); }

// A moment in seconds after the start, as UTC; with its day where the window has several.
const SEVERAL_DAYS = Math.floor(HELD.start / 86400) !== Math.floor((HELD.start + HELD.steps * HELD.tick) / 86400);
function utc(seconds) {
  const at = new Date((HELD.start + Math.round(seconds)) * 1000);
  const clock = `${two(at.getUTCHours())}:${two(at.getUTCMinutes())}:${two(at.getUTCSeconds())}`;
  return SEVERAL_DAYS ? `${at.getUTCFullYear()}-${two(at.getUTCMonth() + 1)}-${two(at.getUTCDate())} ${clock}` : clock;
}
function clockOnly(seconds) { return utc(seconds).slice(-8); }
function begins(row) { return row.first * HELD.tick; }
function ends(row) { return (row.last + 1) * HELD.tick; }
function metres(value) { return value < 10 ? value.toFixed(1) : Math.round(value).toLocaleString("en"); }
function lengths(value) { return value < 10 ? `${metres(value)} m` : `${metres(value)} m (${miles(value)} nautical miles)`; }
function miles(value) { return (value / MILE).toFixed(value < 0.05 * MILE ? 3 : 2); }
function nameOf(number) { return HELD.vessels[number].name; }
function fullName(number) {
  const vessel = HELD.vessels[number];
  return vessel.name === String(vessel.mmsi) ? vessel.name : `${vessel.name} (${vessel.mmsi})`;
}

// The stretches of each meeting.
HELD.meetings.forEach((meeting, number) => { meeting.number = number; meeting.verdicts = []; });
HELD.verdicts.forEach((verdict, number) => {
  verdict.number = number;
  if (verdict.meeting !== null) HELD.meetings[verdict.meeting].verdicts.push(verdict);
});

function element(tag, words, attributes) {
  const made = document.createElement(tag);
  if (words !== undefined && words !== null) made.textContent = words;
  for (const [key, value] of Object.entries(attributes || {})) made.setAttribute(key, value);
  return made;
}

function drawn(tag, attributes, words) {
  const made = document.createElementNS("http://www.w3.org/2000/svg", tag);
  for (const [key, value] of Object.entries(attributes)) made.setAttribute(key, typeof value === "number" ? +value.toFixed(2) : value);
  if (words !== undefined) made.textContent = words;
  return made;
}

function chip(verdict) {
  const rule = HELD.rules[verdict.rule];
  const made = element("span", `${rule.name} ${verdict.broken ? "broken" : "open"}`, { class: verdict.broken ? "chip" : "chip open", title: rule.words });
  made.style[verdict.broken ? "background" : "color"] = rule.colour;
  return made;
}

function stillWords(numbers, pair) {
  if (!numbers.length) return "";
  return numbers.length === 2 ? "both lie still" : `${nameOf(pair[numbers[0]])} lies still`;
}

// What each of two vessels is bound to from the beginning of their meeting on, in words.
function dutiesOf(meeting) {
  const early = HELD.early > 0 ? `, early until ${clockOnly(begins(meeting) + HELD.early)}` : "";
  return meeting.pair.map((number, k) => [nameOf(number), HELD.duties[meeting.kinds[k]]]).filter(([, duty]) => duty).map(
    ([name, duty]) => `${name} has to ${duty} from ${clockOnly(begins(meeting))} on${duty.includes("16") || duty.includes("14") ? early : ""}.`);
}

function counted(number, one) { return `${number.toLocaleString("en")} ${one}${number === 1 ? "" : "s"}`; }

// The least of 1, 2 and 5 times a power of ten that is not below the value.
function nice(value) {
  const power = 10 ** Math.floor(Math.log10(value));
  return [1, 2, 5, 10].map((k) => k * power).find((k) => k >= value * 0.999);
}

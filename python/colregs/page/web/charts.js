// The charts of a meeting by time: distance and CPA, TCPA, course and speed, with the stretches of the rules shaded and the moment the duties began.
"use strict";
const Charts = (() => {
  const WIDE = 640, LEFT = 58, RIGHT = 46, HIGH = 118, GAP = 36, ROWS = 4, SAMPLES = 300, LONGEST = 3600;
  const FROMS = [0, -180, -90, -270];     // degrees at which the scale of courses may begin
  const across = WIDE - LEFT - RIGHT;
  let now = null, moment = null;

  // The values of a report's field between two times, in parts: a part ends if a report has none or the next comes too late.
  // Of courses `from` is the least value of the scale, one of FROMS; for other fields it is null.
  function told(track, field, first, last, from) {
    const parts = [];
    let part = [];
    const close = () => { if (part.length) parts.push(part); part = []; };
    for (let k = Math.max(0, before(track.times, first)); k < track.times.length && track.times[k] <= last; k++) {
      const raw = track[field][k] / 10, value = from !== null && raw >= from + 360 ? raw - 360 : raw, previous = part[part.length - 1];
      if (track[field][k] < 0) { close(); continue; }
      if (previous && (track.parts.has(k) || from !== null && Math.abs(value - previous[1]) > 180)) close();
      part.push([track.times[k], value]);
    }
    close();
    return parts;
  }

  // How often the line of a vessel's courses is broken on a scale that begins at `from`.
  function breaks(meeting, from) {
    return meeting.pair.reduce((count, number) => count + told(TRACKS[number], "courses", now.first, now.last, from).length, 0);
  }

  function distances(meeting, first, last) {
    const [a, b] = meeting.pair.map((number) => TRACKS[number]);
    const times = new Set([first, last, meeting.nearest]);
    for (const track of [a, b]) for (const time of track.times) if (time > first && time < last) times.add(time);
    const parts = [];
    let part = [];
    for (const time of [...times].sort((p, q) => p - q)) {
      const one = placeAt(a, time), other = placeAt(b, time);
      if (one && other) part.push([time, Math.hypot(one[0] - other[0], one[1] - other[1])]);
      else { if (part.length) parts.push(part); part = []; }
    }
    if (part.length) parts.push(part);
    return parts;
  }

  function x(time) { return LEFT + across * (time - now.first) / (now.last - now.first); }

  function frame(svg, top, title, low, high, every, right) {
    const y = (value) => top + HIGH - HIGH * (value - low) / (high - low || 1);
    for (let value = Math.ceil(low / every) * every; value <= high + 1e-9; value += every) {
      svg.append(drawn("line", { x1: LEFT, x2: WIDE - RIGHT, y1: y(value), y2: y(value), stroke: "#e3e8ec" }));
      svg.append(drawn("text", { x: LEFT - 5, y: y(value) + 3.5, "font-size": 10, fill: "#555555", "text-anchor": "end" }, String(+(value < 0 ? value + 360 : value).toFixed(2))));
      if (right) svg.append(drawn("text", { x: WIDE - RIGHT + 5, y: y(value) + 3.5, "font-size": 10, fill: "#555555" }, right(value)));
    }
    svg.append(drawn("text", { x: LEFT, y: top - 6, "font-size": 11, "font-weight": "bold", fill: "#222222" }, title));
    svg.append(drawn("rect", { x: LEFT, y: top, width: across, height: HIGH, fill: "none", stroke: "#8a949d" }));
    return y;
  }

  function times(svg, top, words) {
    const every = [5, 10, 15, 30, 60, 120, 300, 600, 900, 1800, 3600, 7200, 21600].find((s) => (now.last - now.first) / s <= 8) || 43200;
    const offset = ((HELD.start % every) + every) % every;
    for (let time = Math.ceil((now.first + offset) / every) * every - offset; time <= now.last; time += every) {
      svg.append(drawn("line", { x1: x(time), x2: x(time), y1: top, y2: top + HIGH, stroke: "#e9edf0" }));
      if (words) svg.append(drawn("text", { x: x(time), y: top + HIGH + 14, "font-size": 10, fill: "#555555", "text-anchor": "middle" }, clockOnly(time)));
    }
  }

  function shade(svg, top, meeting, who, lowest) {
    const rows = meeting.verdicts.filter((verdict) => who === null || verdict.pair[0] === who);
    rows.forEach((verdict) => {
      const rule = HELD.rules[verdict.rule], left = x(begins(verdict)), wide = Math.max(2, x(ends(verdict)) - left);
      const box = drawn("rect", { x: left, y: top, width: wide, height: HIGH, fill: rule.colour, "fill-opacity": verdict.broken ? 0.2 : 0.06, class: "shade" });
      if (!verdict.broken) { box.setAttribute("stroke", rule.colour); box.setAttribute("stroke-dasharray", "3 3"); }
      box.append(drawn("title", {}, `${rule.words}: ${verdict.broken ? "broken" : "open"} by ${nameOf(verdict.pair[0])}`));
      svg.append(box);
    });
    for (const time of [begins(meeting), ends(meeting)]) {
      svg.append(drawn("line", { x1: x(time), x2: x(time), y1: top, y2: top + HIGH, stroke: "#5b6770", "stroke-dasharray": "5 3" }));
    }
    svg.append(drawn("line", { x1: x(meeting.nearest), x2: x(meeting.nearest), y1: top, y2: top + HIGH, stroke: "#222222", "stroke-dasharray": "2 3" }));
  }

  // The names of the rules over the distance, in rows so that no two lie over each other.
  function ruleWords(svg, top, meeting) {
    const rows = [];
    [...meeting.verdicts].sort((p, q) => p.first - q.first).forEach((verdict) => {
      const rule = HELD.rules[verdict.rule], words = `${rule.name} ${nameOf(verdict.pair[0])}`, wide = words.length * 6.6, left = Math.max(LEFT, Math.min(x(begins(verdict)), WIDE - RIGHT - wide));
      let row = rows.findIndex((until) => until < left);
      if (row < 0) row = rows.push(0) - 1;
      rows[row] = left + wide + 6;
      if (row < 9) svg.append(drawn("text", { x: left + 2, y: top + 11 + 12 * row, "font-size": 10, "font-weight": "bold", fill: rule.colour, stroke: "#ffffff",
        "stroke-width": 2.5, "paint-order": "stroke" }, words));
    });
  }

  function line(svg, parts, y, colour, class_) {
    parts.forEach((part) => {
      const inside = part.map(([time, value]) => [Math.min(Math.max(time, now.first), now.last), value]);
      svg.append(drawn("polyline", { points: inside.map(([time, value]) => `${x(time).toFixed(1)},${y(value).toFixed(1)}`).join(" "), fill: "none", stroke: colour,
        "stroke-width": 1.7, "stroke-linejoin": "round", class: class_ }));
      if (part.length === 1) svg.append(drawn("circle", { cx: x(inside[0][0]), cy: y(inside[0][1]), r: 1.8, fill: colour }));
    });
  }

  function greatest(parts, least) { return Math.max(least, ...parts.map((part) => part.reduce((most, [, value]) => Math.max(most, value), 0))); }

  // A value of the approach of the two at many moments, in parts: a part ends where it is null.
  function approaches(meeting, value) {
    const parts = [];
    let part = [];
    for (let k = 0; k <= SAMPLES; k++) {
      const time = now.first + (now.last - now.first) * k / SAMPLES, found = approach(meeting.pair, time), told = found && value(found);
      if (told !== null && told !== undefined) part.push([time, told]);
      else { if (part.length) parts.push(part); part = []; }
    }
    if (part.length) parts.push(part);
    return parts;
  }

  function distanceChart(svg, top, meeting) {
    const parts = distances(meeting, now.first, now.last), high = greatest(parts, 1) * 1.08, every = nice(high / 5);
    times(svg, top, true);
    const y = frame(svg, top, "Distance, and green: CPA if both go on, m (right: nautical miles)", 0, high, every, (value) => (value / MILE).toFixed(every < 200 ? 2 : 1));
    shade(svg, top, meeting, null);
    line(svg, approaches(meeting, (found) => Math.min(high, found.least)), y, "#0a7d3b", "cpa");
    line(svg, parts, y, "#222222", "distance");
    dutyWords(svg, top, meeting);
    svg.append(drawn("circle", { cx: x(meeting.nearest), cy: y(meeting.least), r: 3.5, fill: "none", stroke: "#222222", "stroke-width": 1.5 }));
    ruleWords(svg, top, meeting);
  }

  // The time to the closest approach in minutes, while it is ahead and within an hour.
  function tcpaChart(svg, top, meeting) {
    const parts = approaches(meeting, (found) => (found.time > 0 && found.time <= LONGEST ? found.time / 60 : null)), high = greatest(parts, 1) * 1.08;
    times(svg, top, true);
    const y = frame(svg, top, "TCPA: time to the closest approach if both go on, minutes", 0, high, nice(high / 4));
    shade(svg, top, meeting, null);
    line(svg, parts, y, "#0a7d3b", "tcpa");
  }

  // When the duties of both began, and until when action is early.
  function dutyWords(svg, top, meeting) {
    const mark = (time, words, row) => {
      svg.append(drawn("line", { x1: x(time), x2: x(time), y1: top, y2: top + HIGH, stroke: "#7a2e00", "stroke-width": 1.2, class: "duty" }));
      const isLate = x(time) > WIDE - 6 * words.length;        // then the words stand before the line
      svg.append(drawn("text", { x: x(time) + (isLate ? -3 : 3), y: top + HIGH - 5 - 11 * row, "font-size": 9.5, fill: "#7a2e00", stroke: "#ffffff",
        "stroke-width": 2.5, "paint-order": "stroke", "text-anchor": isLate ? "end" : "start" }, words));
    };
    if (!dutiesOf(meeting).length) return;
    mark(begins(meeting), `duties begin ${clockOnly(begins(meeting))}`, 1);
    if (HELD.early > 0 && begins(meeting) + HELD.early < now.last) mark(begins(meeting) + HELD.early, "early until here", 0);
  }

  function courseRange(both, from) {
    const values = both.flat().flat().map(([, value]) => value);
    if (!values.length) return [from, from + 360, 90];
    const low = Math.max(from, Math.floor((Math.min(...values) - 5) / 10) * 10), high = Math.min(from + 360, Math.ceil((Math.max(...values) + 5) / 10) * 10);
    return high - low > 200 ? [from, from + 360, 90] : [low, high, nice((high - low) / 4)];
  }

  function pairChart(svg, top, meeting, field, title) {
    // A course near north is one line on a scale that begins elsewhere, as from -180 to 180 degrees, labelled from 180 over 0 to 180.
    const from = field !== "courses" ? null : FROMS.reduce((best, next) => (breaks(meeting, next) < breaks(meeting, best) ? next : best));
    const both = meeting.pair.map((number) => told(TRACKS[number], field, now.first, now.last, from));
    const high = greatest(both.flat(), 1) * 1.1;
    const [low, most, every] = field === "courses" ? courseRange(both, from) : [0, high, nice(high / 4)];
    times(svg, top, true);
    const y = frame(svg, top, title, low, most, every);
    shade(svg, top, meeting, null);
    both.forEach((parts, k) => line(svg, parts, y, PAIR_COLOURS[k], field));
    if (!both.flat().length) {
      const middle = { x: LEFT + across / 2, y: top + HIGH / 2, "font-size": 11, fill: "#555555", "text-anchor": "middle" };
      svg.append(drawn("text", middle, "no report has it"));
    }
  }

  function legend(svg, top, meeting) {
    let left = LEFT;
    meeting.pair.forEach((number, k) => {
      svg.append(drawn("line", { x1: left, x2: left + 18, y1: top, y2: top, stroke: PAIR_COLOURS[k], "stroke-width": 3 }));
      svg.append(drawn("text", { x: left + 23, y: top + 4, "font-size": 11, fill: PAIR_COLOURS[k], "font-weight": "bold" }, nameOf(number)));
      left += 40 + nameOf(number).length * 7.5;
    });
    ["Dashed: the meeting begins and ends. Dotted: nearest.", "Shaded: a rule is broken; in a dashed frame: open, undecided."].forEach((words, k) => {
      svg.append(drawn("text", { x: LEFT, y: top + 20 + 13 * k, "font-size": 10, fill: "#555555" }, words));
    });
  }

  function follow(svg, meeting) {
    const hair = drawn("line", { x1: 0, x2: 0, y1: 0, y2: 0, stroke: "#0a7d3b", "stroke-width": 1 });
    svg.append(hair);
    const words = drawn("text", { x: WIDE - RIGHT, y: 10, "font-size": 11, fill: "#0a7d3b", "text-anchor": "end" }, "");
    svg.append(words);
    svg.addEventListener("mousemove", (event) => {
      const box = svg.getBoundingClientRect(), at = (event.clientX - box.left) * WIDE / box.width;
      const time = now.first + (at - LEFT) / across * (now.last - now.first);
      if (time < now.first || time > now.last) return;
      for (const [key, value] of [["x1", at], ["x2", at], ["y1", 16], ["y2", 16 + ROWS * HIGH + (ROWS - 1) * GAP]]) hair.setAttribute(key, value);
      const places = meeting.pair.map((number) => placeAt(TRACKS[number], time));
      words.textContent = utc(time) + (places[0] && places[1] ? `, ${metres(Math.hypot(places[0][0] - places[1][0], places[0][1] - places[1][1]))} m` : "");
      MapView.point(meeting, time);
    });
    svg.addEventListener("click", (event) => {
      const box = svg.getBoundingClientRect();
      Playback.set(now.first + ((event.clientX - box.left) * WIDE / box.width - LEFT) / across * (now.last - now.first));
    });
    svg.addEventListener("mouseleave", () => { words.textContent = ""; hair.setAttribute("y2", hair.getAttribute("y1")); MapView.point(meeting, null); });
  }

  function draw(meeting, first, last) {
    now = { first, last };
    const top = 24, step = HIGH + GAP;
    const svg = drawn("svg", { viewBox: `0 0 ${WIDE} ${top + ROWS * step + 57}`, "font-family": "Helvetica, Arial, 'Liberation Sans', sans-serif" });
    distanceChart(svg, top, meeting);
    tcpaChart(svg, top + step, meeting);
    pairChart(svg, top + 2 * step, meeting, "courses", "Course over ground, degrees");
    pairChart(svg, top + 3 * step, meeting, "speeds", "Speed over ground, knots");
    legend(svg, top + ROWS * step + 12, meeting);
    const frames = Array.from({ length: ROWS }, (_, k) => `M0 ${top + k * step}v${HIGH}`).join("");
    moment = drawn("path", { d: frames, stroke: "#b8860b", "stroke-width": 1.5, class: "moment", visibility: "hidden" });
    svg.append(moment);
    follow(svg, meeting);
    document.getElementById("charts").replaceChildren(svg);
  }

  // Marks the moment of the playback.
  function at(time) {
    if (!moment) return;
    const inside = time >= now.first && time <= now.last;
    moment.setAttribute("visibility", inside ? "visible" : "hidden");
    if (inside) moment.setAttribute("transform", `translate(${x(time).toFixed(1)} 0)`);
  }
  return { draw, at };
})();

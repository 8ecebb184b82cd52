// The chart by time: a row for each two vessels; only the rows in view are drawn.
"use strict";
const Times = (() => {
  const ROW = 20, RIGHT = 14, LETTER = 6.5;      // pixels; LETTER is the width of a letter of a name
  const LEGEND = "Grey: the meeting, light where a vessel lies still. Below it, in the colours of the rules: stretches that are broken "
    + "(filled) or open (hollow).";
  const box = document.getElementById("times-rows"), space = document.getElementById("times-space");
  const view = { onChoose() {} };
  let pairs = [], wide = 900, left = 250, first = 0, last = 1, chosen = null;

  function grouped(meetings) {
    const found = new Map();
    for (const meeting of meetings) {
      const key = meeting.pair.join();
      if (!found.has(key)) found.set(key, []);
      found.get(key).push(meeting);
    }
    return [...found.values()];
  }

  function x(time) { return left + (wide - left - RIGHT) * (time - first) / (last - first); }

  function axis() {
    const most = Math.min(12, (wide - left) / 48);
    const every = [60, 120, 300, 600, 900, 1800, 3600, 7200, 10800, 21600, 43200].find((s) => (last - first) / s <= most) || 86400;
    const svg = drawn("svg", { width: wide, height: 18, "font-family": "inherit" });
    const marks = [];
    const offset = HELD.start % every;
    for (let time = Math.ceil((first + offset) / every) * every - offset; time <= last; time += every) marks.push(time);
    marks.forEach((time) => svg.append(drawn("text", { x: x(time), y: 13, "font-size": 10, fill: "#555555", "text-anchor": "middle" }, clockOnly(time).slice(0, 5))));
    svg.append(drawn("text", { x: 4, y: 13, "font-size": 10, fill: "#555555" }, "UTC"));
    document.getElementById("times-axis").replaceChildren(svg);
    return marks;
  }

  function bar(svg, meeting, y) {
    const from = x(begins(meeting)), width = Math.max(2, x(ends(meeting)) - from);
    const rect = drawn("rect", { x: from, y: y + 3, width, height: 7, fill: meeting === chosen ? "#e0a100" : meeting.rest.length ? "#c3cad0" : "#5b6770",
      class: "meeting", "data-meeting": String(meeting.number + 1) });
    rect.append(drawn("title", {}, `Meeting ${meeting.number + 1}: ${meeting.pair.map(nameOf).join(" and ")}, ${metres(meeting.least)} m`));
    rect.addEventListener("click", () => view.onChoose(meeting));
    svg.append(rect);
    meeting.verdicts.forEach((verdict) => {
      const at = x(begins(verdict)), fill = HELD.rules[verdict.rule].colour;
      svg.append(drawn("rect", { x: at, y: y + 11, width: Math.max(2, x(ends(verdict)) - at), height: 6, fill: verdict.broken ? fill : "#ffffff", stroke: fill,
        "stroke-width": verdict.broken ? 0 : 1, "fill-opacity": 0.85, "pointer-events": "none" }));
    });
  }

  function rowsOf(low, high, marks) {
    const svg = drawn("svg", { width: wide, height: (high - low) * ROW + 1, "font-family": "inherit" });
    svg.style.top = `${low * ROW}px`;
    marks.forEach((time) => svg.append(drawn("line", { x1: x(time), x2: x(time), y1: 0, y2: (high - low) * ROW, stroke: "#e3e8ec" })));
    for (let k = low; k < high; k++) {
      const y = (k - low) * ROW, here = chosen && pairs[k].includes(chosen);
      let words = pairs[k][0].pair.map(nameOf).join(" \u2013 ");
      const room = Math.floor(left / LETTER);
      words = words.length > room ? `${words.slice(0, room - 1)}\u2026` : words;
      svg.append(drawn("text", { x: 6, y: y + 14, "font-size": 11, fill: "#222222", "font-weight": here ? "bold" : "normal" }, words));
      svg.append(drawn("line", { x1: 0, x2: wide, y1: y + ROW, y2: y + ROW, stroke: "#f0f2f4" }));
      pairs[k].forEach((meeting) => bar(svg, meeting, y));
    }
    return svg;
  }

  // Draws what is seen; or for paper so many rows, of so many pixels.
  view.draw = (most, paper) => {
    if (!pairs.length) { space.replaceChildren(); return; }
    box.style.height = `${most ? Math.min(most, pairs.length) * ROW + 4 : Math.min(360, pairs.length * ROW + 4)}px`;
    wide = paper || Math.max(300, box.clientWidth - 2);
    left = Math.min(250, 0.38 * wide);
    const marks = axis(), low = most ? 0 : Math.max(0, Math.floor(box.scrollTop / ROW) - 5);
    const high = Math.min(pairs.length, most || low + Math.ceil(box.clientHeight / ROW) + 10);
    space.style.height = `${(most ? high : pairs.length) * ROW}px`;
    space.replaceChildren(rowsOf(low, high, marks));
  };

  view.show = (meetings) => {
    pairs = grouped(meetings);
    first = 0;
    last = HELD.steps * HELD.tick;
    document.getElementById("times-words").textContent = meetings.length
      ? `${counted(meetings.length, "meeting")} of ${counted(pairs.length, "pair")}, as the table of meetings is filtered. ${LEGEND}`
      : "No meeting.";
    view.draw();
  };

  view.choose = (meeting) => {
    chosen = meeting;
    const at = pairs.findIndex((pair) => pair.includes(meeting));
    if (at >= 0 && (at * ROW < box.scrollTop || (at + 1) * ROW > box.scrollTop + box.clientHeight)) box.scrollTop = Math.max(0, (at - 4) * ROW);
    view.draw();
  };

  box.addEventListener("scroll", () => view.draw());
  return view;
})();

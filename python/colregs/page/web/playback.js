// Playback on the map: hulls at scale by the antenna's distances, headings, and vectors of six minutes; its moment also stands on the charts.
"use strict";
const Playback = (() => {
  const VECTOR = 360, FRAME = 50, LEAST = 9;      // s, ms between two pictures, and pixels of the shortest hull
  const NAMED = 0.01;                             // pixels for a metre from which on the two have their names
  const SPEEDS = [1, 2, 5, 10, 20, 30, 60];
  const view = { time: 0 };
  const byId = (id) => document.getElementById(id);
  let map = null, canvas = null, chosen = null, range = [0, 0], timer = null, latest = 0;

  // Metres from the antenna to bow, stern, port and starboard; from her length if she reports none.
  function hullOf(vessel) {
    if (vessel.hull) return vessel.hull;
    const length = vessel.length || 30, wide = Math.max(2, length / 14);
    return [length / 2, length / 2, wide, wide];
  }

  const HULLS = HELD.vessels.map(hullOf);

  function headingAt(number, seconds, motion) {
    const told = HEADINGS[number], k = before(told.times, seconds);
    return k >= 0 && told.values[k] >= 0 ? told.values[k] * Math.PI / 180 : Math.atan2(motion[0], motion[1]);
  }

  // The corners of a hull in pixels about its antenna: the bow is a point.
  function corners(hull, heading, scale) {
    const [bow, stern, port, starboard] = hull, shoulder = bow - 0.2 * (bow + stern), sine = Math.sin(heading), cosine = Math.cos(heading);
    return [[bow, (starboard - port) / 2], [shoulder, starboard], [-stern, starboard], [-stern, -port], [shoulder, -port]].map(
      ([ahead, right]) => [scale * (ahead * sine + right * cosine), scale * (right * sine - ahead * cosine)]);
  }

  function drawVessel(paper, number, pixels) {
    const place = placeAt(TRACKS[number], view.time);
    if (!place) return false;
    const at = map.latLngToContainerPoint(latLng(...place)), motion = motionAt(TRACKS[number], view.time);
    const mine = chosen ? chosen.pair.indexOf(number) : -1, hull = HULLS[number], length = hull[0] + hull[1] || 1;
    const colour = mine >= 0 ? PAIR_COLOURS[mine] : "#44505a";
    paper.strokeStyle = paper.fillStyle = colour;
    if (motion && byId("play-vectors").checked && Math.hypot(...motion) > 0.25) {
      paper.lineWidth = mine >= 0 ? 1.6 : 0.8;
      paper.beginPath();
      paper.moveTo(at.x, at.y);
      paper.lineTo(at.x + motion[0] * VECTOR * pixels, at.y - motion[1] * VECTOR * pixels);
      paper.stroke();
    }
    const shape = corners(hull, headingAt(number, view.time, motion || [0, 1]), Math.max(pixels, LEAST / length));
    paper.beginPath();
    shape.forEach(([x, y], k) => (k ? paper.lineTo(at.x + x, at.y + y) : paper.moveTo(at.x + x, at.y + y)));
    paper.closePath();
    paper.globalAlpha = mine >= 0 ? 0.9 : 0.55;
    paper.fill();
    paper.globalAlpha = 1;
    if (mine >= 0 && pixels > NAMED) { paper.font = "bold 11px sans-serif"; paper.fillText(nameOf(number), at.x + 8, at.y - 8); }
    return true;
  }

  function draw() {
    byId("play-clock").textContent = `${utc(view.time)} UTC`;
    byId("play-time").value = view.time;
    Charts.at(view.time);
    if (!map) return;
    const size = map.getSize(), paper = canvas.getContext("2d");
    canvas.width = size.x;
    canvas.height = size.y;
    const middle = map.getCenter(), one = map.latLngToContainerPoint(middle), other = map.latLngToContainerPoint([middle.lat + 1 / 60, middle.lng]);
    const pixels = Math.abs(one.y - other.y) / MILE;
    view.seen = HELD.vessels.map((_, number) => number).filter((number) => drawVessel(paper, number, pixels)).length;
  }

  view.set = (seconds) => {
    view.time = Math.min(range[1], Math.max(range[0], seconds));
    draw();
  };

  function tick() {
    const now = performance.now();
    view.set(view.time + (now - latest) / 1000 * Number(byId("play-speed").value));
    latest = now;
    if (view.time >= range[1]) view.stop();
  }

  view.stop = () => {
    clearInterval(timer);
    timer = null;
    byId("play-toggle").textContent = "play";
  };

  view.play = () => {
    if (view.time >= range[1]) view.time = range[0];
    latest = performance.now();
    timer = setInterval(tick, FRAME);
    byId("play-toggle").textContent = "pause";
  };

  function setRange(first, last) {
    range = [first, last];
    Object.assign(byId("play-time"), { min: first, max: last, step: 1 });
    view.set(view.time);
  }

  function whole() { return [0, HELD.steps * HELD.tick]; }

  // Sets the slider to a meeting, and the moment to its beginning.
  view.choose = (meeting, first, last) => {
    view.stop();
    chosen = meeting;
    view.part = [first, last];
    view.time = begins(meeting);
    setRange(...(byId("play-whole").checked ? whole() : view.part));
  };

  view.start = (of) => {
    map = of;
    view.part = whole();
    if (map) {
      canvas = element("canvas", null, { id: "play-canvas" });
      map.getContainer().append(canvas);
      map.on("move zoom resize moveend zoomend", draw);
    }
    byId("play-speed").append(...SPEEDS.map((speed) => element("option", `${speed} times`, { value: speed })));
    byId("play-speed").value = 30;
    byId("play-toggle").addEventListener("click", () => (timer === null ? view.play() : view.stop()));
    byId("play-time").addEventListener("input", () => { view.stop(); view.set(Number(byId("play-time").value)); });
    byId("play-whole").addEventListener("change", () => setRange(...(byId("play-whole").checked ? whole() : view.part)));
    byId("play-vectors").addEventListener("change", draw);
    setRange(...whole());
  };
  return view;
})();

// Draws vessels, tracks, encounters and the net of degrees on one canvas over the map.
import { degrees, mercator } from "./words.js";

const HULL = [[0, -7.2], [3.6, -1.6], [3.6, 6.4], [-3.6, 6.4], [-3.6, -1.6]];
const TILE = 256;                    // pixels of the world at Leaflet's zoom 0
const STEPS = [1 / 600, 1 / 300, 1 / 120, 1 / 60, 1 / 30, 1 / 12, 1 / 6, 1 / 2, 1, 2, 5, 10, 20];
const AHEAD = 360, TRACK = 900;      // s of the line of speed, and of the track behind a vessel
const MOST_NAMES = 150, FEW = 1000;  // names at most; vessels beyond which tracks are drawn for those in alarm alone

export class Drawing {
  constructor(canvas, map) {
    this.canvas = canvas;
    this.map = map;
    this.pen = canvas.getContext("2d");
    this.spots = [];            // where vessels are on the canvas, for a click
    this.readColours();
  }

  readColours() {
    const style = getComputedStyle(document.documentElement);
    const names = ["ink", "quiet", "grid", "track", "calm", "rest", "met", "soon", "broken", "silent", "ground", "focus"];
    this.colours = Object.fromEntries(names.map((name) => [name, style.getPropertyValue(`--${name}`).trim()]));
  }

  // Notes where the map is. Places are projected once, when they arrive, and not in each frame.
  look() {
    const { min } = this.map.getPixelBounds();
    [this.scale, this.left, this.top] = [TILE * 2 ** this.map.getZoom(), min.x, min.y];
  }

  spot([x, y]) { return { x: x * this.scale - this.left, y: y * this.scale - this.top }; }

  at(longitude, latitude) { return this.spot(mercator(longitude, latitude)); }

  fit() {
    const size = this.map.getSize(), ratio = devicePixelRatio || 1;
    if (this.canvas.width !== Math.round(size.x * ratio) || this.canvas.height !== Math.round(size.y * ratio)) {
      this.canvas.width = Math.round(size.x * ratio);
      this.canvas.height = Math.round(size.y * ratio);
      this.canvas.style.width = `${size.x}px`;
      this.canvas.style.height = `${size.y}px`;
    }
    this.pen.setTransform(ratio, 0, 0, ratio, 0, 0);
    this.pen.clearRect(0, 0, size.x, size.y);
    return size;
  }

  // Draws all of a store. `chosen` has the MMSIs of the vessels that are chosen.
  draw(store, states, filters, chosen) {
    const size = this.fit(), { pen } = this;
    this.look();
    pen.font = "11px Helvetica, Arial, sans-serif";
    this.net(size);
    this.spots = [];
    const shown = [];
    for (const vessel of store.vessels.values()) {
      if (vessel.latitude === undefined || !filters.vessel(vessel)) continue;
      const point = this.spot(vessel.place);
      if (point.x < -60 || point.y < -60 || point.x > size.x + 60 || point.y > size.y + 60) continue;
      shown.push({ vessel, x: point.x, y: point.y, state: states.get(vessel.mmsi) || "calm", chosen: chosen.has(vessel.mmsi) });
    }
    const few = shown.length <= FEW;
    for (const spot of shown) if (few || spot.chosen || spot.state === "broken" || spot.state === "soon") this.track(spot);
    this.encounters(store, filters);
    this.vessels(shown);
    this.names(shown);
    this.area(filters.area);
    this.spots = shown;
  }

  line(points, colour, width, dash = []) {
    const { pen } = this;
    pen.strokeStyle = colour;
    pen.lineWidth = width;
    pen.setLineDash(dash);
    pen.beginPath();
    points.forEach(([x, y], k) => (k ? pen.lineTo(x, y) : pen.moveTo(x, y)));
    pen.stroke();
    pen.setLineDash([]);
  }

  track({ vessel, x, y, state, chosen }) {
    if (state === "rest" && !chosen) return;
    const points = [];
    for (let k = vessel.track.length - 1; k >= 0 && vessel.track[k][0] >= vessel.time - TRACK; k--) {
      const point = this.spot(vessel.track[k][1]);
      points.push([point.x, point.y]);
    }
    if (points.length > 1) this.line(points, chosen ? this.colours.focus : this.colours.track, chosen ? 2 : 1);
    if (vessel.speed && vessel.course !== null) {
      const way = vessel.speed * AHEAD / 3600 / 60, turn = vessel.course * Math.PI / 180;
      const end = this.at(vessel.longitude + way * Math.sin(turn) / Math.cos(vessel.latitude * Math.PI / 180), vessel.latitude + way * Math.cos(turn));
      this.line([[x, y], [end.x, end.y]], this.colours[state], 1.2);
    }
  }

  // Draws the vessels: those of one state in one path, and then what only some have.
  vessels(shown) {
    const { pen } = this, hulls = new Map();
    for (const spot of shown) {
      if (!hulls.has(spot.state)) hulls.set(spot.state, new Path2D());
      this.hull(hulls.get(spot.state), spot);
    }
    pen.lineWidth = 1;
    for (const [state, path] of hulls) {
      pen.fillStyle = this.colours[state];
      pen.strokeStyle = state === "silent" ? this.colours.quiet : this.colours.ground;
      if (state !== "silent") pen.fill(path);
      pen.stroke(path);
    }
    for (const spot of shown) if (spot.chosen || spot.state === "broken" || spot.state === "soon") this.ring(spot);
  }

  hull(path, { vessel, x, y }) {
    const degree = vessel.heading ?? vessel.course;
    if (degree === null || degree === undefined) {
      path.moveTo(x + 4, y);
      path.arc(x, y, 4, 0, 7);
      return;
    }
    const turn = degree * Math.PI / 180, sine = Math.sin(turn), cosine = Math.cos(turn);
    HULL.forEach(([a, b], k) => path[k ? "lineTo" : "moveTo"](x + a * cosine - b * sine, y + a * sine + b * cosine));
    path.closePath();
  }

  ring({ x, y, state, chosen }) {
    const { pen } = this;
    pen.strokeStyle = this.colours[chosen ? "focus" : state];
    pen.lineWidth = chosen ? 2.5 : 2;
    pen.beginPath();
    pen.arc(x, y, 13, 0, 7);
    pen.stroke();
  }

  encounters(store, filters) {
    for (const one of store.encounters.values()) {
      const ends = one.pair.map((mmsi) => store.vessels.get(mmsi));
      if (!ends[0] || !ends[1] || !filters.encounter(store, one)) continue;
      const points = ends.map((vessel) => this.spot(vessel.place)).map(({ x, y }) => [x, y]);
      this.line(points, this.colours.met, 1, [4, 4]);
    }
  }

  // Names where there is room: those in alarm and chosen first.
  names(shown) {
    const { pen } = this, taken = new Set(), order = { broken: 0, soon: 1, met: 2, calm: 3, rest: 4, silent: 5 };
    const wanted = shown.filter(({ state, chosen }) => shown.length <= MOST_NAMES || chosen || order[state] < 3);
    wanted.sort((a, b) => b.chosen - a.chosen || order[a.state] - order[b.state]);
    let left = MOST_NAMES;
    pen.lineWidth = 3;
    for (const { vessel, x, y, state, chosen } of wanted) {
      const words = vessel.name || String(vessel.mmsi), cells = [];
      for (let k = 0; k <= words.length * 6.5; k += 20) cells.push(`${Math.round((x + 10 + k) / 20)}:${Math.round(y / 13)}`);
      if (!chosen && cells.some((cell) => taken.has(cell))) continue;
      if (!left--) return;
      cells.forEach((cell) => taken.add(cell));
      pen.strokeStyle = this.colours.ground;
      pen.fillStyle = state === "broken" || state === "soon" ? this.colours[state] : state === "rest" || state === "silent" ? this.colours.quiet : this.colours.ink;
      pen.strokeText(words, x + 10, y + 4);
      pen.fillText(words, x + 10, y + 4);
    }
  }

  net(size) {
    const { pen, map } = this, bounds = map.getBounds();
    const spacing = (span, room) => STEPS.find((step) => span / step <= room) || 30;
    const high = spacing(bounds.getNorth() - bounds.getSouth(), size.y / 110), wide = spacing(bounds.getEast() - bounds.getWest(), size.x / 130);
    pen.fillStyle = this.colours.quiet;
    for (let k = Math.ceil(bounds.getSouth() / high); k * high < bounds.getNorth(); k++) {
      const { y } = this.at(bounds.getWest(), k * high);
      this.line([[0, y], [size.x, y]], this.colours.grid, 0.8);
      pen.fillText(degrees(k * high, "NS"), size.x - 66, y - 3);
    }
    for (let k = Math.ceil(bounds.getWest() / wide); k * wide < bounds.getEast(); k++) {
      const { x } = this.at(k * wide, bounds.getSouth());
      this.line([[x, 0], [x, size.y]], this.colours.grid, 0.8);
      if (x < size.x - 140) pen.fillText(degrees(((k * wide + 540) % 360) - 180, "EW"), x + 3, 11);
    }
  }

  area(bounds) {
    if (!bounds) return;
    const a = this.at(bounds.getWest(), bounds.getNorth()), b = this.at(bounds.getEast(), bounds.getSouth());
    this.line([[a.x, a.y], [b.x, a.y], [b.x, b.y], [a.x, b.y], [a.x, a.y]], this.colours.focus, 1.5, [6, 4]);
  }

  // The vessel near a place on the canvas, or null.
  near(x, y) {
    let best = null, least = 14;
    for (const spot of this.spots) {
      const far = Math.hypot(spot.x - x, spot.y - y);
      if (far < least) [best, least] = [spot.vessel, far];
    }
    return best;
  }
}

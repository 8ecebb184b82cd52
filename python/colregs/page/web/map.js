// The map: all tracks, a coast if there is one, a net of degrees, and what is chosen.
"use strict";
const MapView = (() => {
  const view = {};
  const named = HELD.vessels.length <= 40;      // then each vessel has her name on the map
  let map = null, net = null, chosen = null, held = null, dots = [];

  // Parts of a track without the points that nobody sees on a map.
  function lines(track, first, last) {
    const parts = [];
    let part = [];
    for (let k = 0; k < track.times.length; k++) {
      if (track.times[k] < first || track.times[k] > last) continue;
      if (part.length && track.parts.has(k)) { parts.push(part); part = []; }
      part.push(L.point(track.xs[k], track.ys[k]));
    }
    if (part.length) parts.push(part);
    return parts.map((points) => L.LineUtil.simplify(points, 4).map((p) => latLng(p.x, p.y)));
  }

  // The way between two times, to the second.
  function stretch(track, first, last) {
    const found = [first, ...Array.from(track.times).filter((time) => time > first && time < last), last];
    return found.map((time) => placeAt(track, time)).filter(Boolean).map(([x, y]) => latLng(x, y));
  }

  function degrees(value, names) {
    const minutes = Math.round(Math.abs(value) * 600000) / 10000, whole = Math.floor(minutes / 60);
    const rest = (minutes - whole * 60).toFixed(2).padStart(5, "0");
    return `${whole}\u00b0${rest}' ${names[value < 0 ? 1 : 0]}`;
  }

  function drawNet() {
    net.clearLayers();
    const bounds = map.getBounds(), size = map.getSize();
    const steps = [1 / 600, 1 / 300, 1 / 120, 1 / 60, 1 / 30, 1 / 12, 1 / 6, 1 / 2, 1, 2, 5, 10, 20];
    const spacing = (span, room) => steps.find((step) => span / step <= room) || 30;
    const high = spacing(bounds.getNorth() - bounds.getSouth(), size.y / 110), wide = spacing(bounds.getEast() - bounds.getWest(), size.x / 130);
    const line = (ends) => L.polyline(ends, { color: "#c9d6df", weight: 0.8, interactive: false }).addTo(net);
    const word = (at, text, shift) => L.marker(at, { icon: L.divIcon({ className: "grid-word", html: text, iconAnchor: shift }), interactive: false,
      keyboard: false }).addTo(net);
    for (let k = Math.ceil(bounds.getSouth() / high); k * high < bounds.getNorth(); k++) {
      line([[k * high, bounds.getWest()], [k * high, bounds.getEast()]]);
      word([k * high, bounds.getEast()], degrees(k * high, "NS"), [66, 14]);
    }
    for (let k = Math.ceil(bounds.getWest() / wide); k * wide < bounds.getEast(); k++) {
      line([[bounds.getSouth(), k * wide], [bounds.getNorth(), k * wide]]);
      if (map.latLngToContainerPoint([0, k * wide]).x < size.x - 140) word([bounds.getNorth(), k * wide], degrees(((k * wide + 540) % 360) - 180, "EW"), [-3, 0]);
    }
  }

  // Leaflet's scale in metres, and below it nautical miles instead of statute ones.
  function addScale() {
    L.Control.Scale.include({ _updateImperial(most) {
      const tenths = this._getRoundNum(Math.max(1, most / MILE * 1000)) / 1000;
      this._updateScale(this._iScale, `${tenths} nautical mile${tenths === 1 ? "" : "s"}`, tenths / (most / MILE));
    } });
    L.control.scale({ maxWidth: 160 }).addTo(map);
  }

  function addTracks() {
    const met = new Set(HELD.meetings.flatMap((meeting) => meeting.pair));
    const all = [];
    TRACKS.forEach((track, number) => {
      const parts = lines(track, -Infinity, Infinity);
      if (!parts.length) return;
      const style = { color: met.has(number) ? "#5b6770" : "#a9b2ba", weight: 1.4, opacity: 0.9 };
      L.polyline(parts, style).bindTooltip(escaped(fullName(number)), { sticky: true }).addTo(map);
      const end = parts[parts.length - 1].slice(-1)[0];
      L.circleMarker(end, { radius: TRACKS.length > 60 ? 1.2 : 2.5, color: style.color, fillOpacity: 1 }).bindTooltip(escaped(fullName(number))).addTo(map);
      if (named) {
        L.tooltip({ permanent: true, className: "name", direction: "auto" }).setLatLng(parts[0][0]).setContent(escaped(nameOf(number))).addTo(map);
      }
      all.push(...parts.flat());
    });
    return all;
  }

  function escaped(words) { return element("i", words).innerHTML; }

  view.start = () => {
    if (typeof L === "undefined") {
      document.getElementById("map").remove();
      document.getElementById("no-map").textContent = HELD.noMap;
      Playback.start(null);
      return;
    }
    map = L.map("map", { preferCanvas: true, attributionControl: false, zoomSnap: 0.25, maxZoom: 20, minZoom: 2, fadeAnimation: false, zoomAnimation: false });
    net = L.layerGroup();
    map.setView([0, 0], 2);
    if (HELD.chart) L.geoJSON(HELD.chart, { interactive: false, style: { color: "#8a7a5c", weight: 1, fillColor: "#efe6cf", fillOpacity: 0.9 },
      pointToLayer: (_, at) => L.circleMarker(at, { radius: 2, color: "#8a7a5c" }) }).addTo(map);
    net.addTo(map);
    const all = addTracks();
    if (!all.length) document.getElementById("no-map").textContent = "No vessel has a position in the window.";
    view.bounds = all.length ? L.latLngBounds(all).pad(0.05) : null;
    chosen = L.layerGroup().addTo(map);
    addScale();
    map.on("moveend resize", drawNet);
    Playback.start(map);
    view.whole();
  };

  // Shows a part of the earth, and keeps it where the map comes to have another size.
  function show(bounds) {
    held = bounds;
    map.fitBounds(bounds, { animate: false, maxZoom: 18 });
  }

  view.whole = () => { if (map && view.bounds) show(view.bounds); };
  view.resize = () => {
    if (!map) return;
    map.invalidateSize({ animate: false });
    if (held) show(held);
  };

  // One vessel's track, in the first colour.
  view.vessel = (number) => {
    const parts = map ? lines(TRACKS[number], -Infinity, Infinity) : [];
    if (!parts.length) return;
    chosen.clearLayers();
    L.polyline(parts, { color: PAIR_COLOURS[0], weight: 3 }).bindTooltip(escaped(fullName(number)), { permanent: true, className: "name" }).addTo(chosen);
    show(L.latLngBounds(parts.flat()).pad(0.1));
  };

  function drawPair(meeting, first, last) {
    meeting.pair.forEach((number, k) => {
      const way = stretch(TRACKS[number], first, last), within = stretch(TRACKS[number], begins(meeting), ends(meeting));
      L.polyline(way, { color: PAIR_COLOURS[k], weight: 2, opacity: 0.8, interactive: false }).addTo(chosen);
      L.polyline(within, { color: PAIR_COLOURS[k], weight: 4, interactive: false }).addTo(chosen);
      if (way.length && !named) L.tooltip({ permanent: true, className: "name", direction: k ? "left" : "right" }).setLatLng(way[0]).setContent(escaped(nameOf(number))).addTo(chosen);
      drawArrow(way, PAIR_COLOURS[k]);
    });
  }

  // A small arrow at the end of a way.
  function drawArrow(way, colour) {
    if (way.length < 2) return;
    const end = way[way.length - 1], back = way[Math.max(0, way.length - 4)];
    const turn = Math.atan2((end[1] - back[1]) * Math.cos(end[0] * Math.PI / 180), end[0] - back[0]) * 180 / Math.PI;
    if (end[0] === back[0] && end[1] === back[1]) return;
    const arrow = `<path d="M0 -7 L5.5 6 L-5.5 6 z" fill="${colour}" stroke="#ffffff" stroke-width="1" transform="rotate(${turn.toFixed(1)})"/>`;
    const html = `<svg width="16" height="16" viewBox="-8 -8 16 16" style="display:block">${arrow}</svg>`;
    L.marker(end, { icon: L.divIcon({ className: "", html, iconSize: [16, 16], iconAnchor: [8, 8] }), interactive: false, keyboard: false }).addTo(chosen);
  }

  function drawStretches(meeting) {
    meeting.verdicts.forEach((verdict) => {
      const rule = HELD.rules[verdict.rule], way = stretch(TRACKS[verdict.pair[0]], begins(verdict), ends(verdict));
      const words = `${rule.name} ${verdict.broken ? "broken" : "open"} by ${nameOf(verdict.pair[0])}, ${utc(begins(verdict))} to ${clockOnly(ends(verdict))}`;
      const style = { color: rule.colour, weight: 10, opacity: 0.45, dashArray: verdict.broken ? null : "4 8", lineCap: "butt" };
      L.polyline(way, style).bindTooltip(escaped(words), { sticky: true }).addTo(chosen);
    });
  }

  view.choose = (meeting, first, last) => {
    if (!map) return;
    chosen.clearLayers();
    dots = [];
    drawStretches(meeting);
    drawPair(meeting, first, last);
    const ends_ = meeting.places.map(([x, y]) => latLng(x, y));
    L.polyline(ends_, { color: "#222222", weight: 1.5, dashArray: "3 4", interactive: false }).addTo(chosen);
    ends_.forEach((at) => L.circleMarker(at, { radius: 5, color: "#222222", weight: 1.5, fill: false, interactive: false }).addTo(chosen));
    const words = `${metres(meeting.least)} m at ${clockOnly(meeting.nearest)}${meeting.lost ? ", contact lost" : ""}`;
    L.tooltip({ permanent: true, className: "name", direction: "bottom", offset: [0, 6] }).setLatLng(L.latLngBounds(ends_).getCenter()).setContent(words).addTo(chosen);
    const around = meeting.pair.flatMap((number) => stretch(TRACKS[number], begins(meeting), ends(meeting))).concat(ends_);
    show(L.latLngBounds(around).pad(0.2));
  };

  // Where the two are at a moment, while the pointer is over a chart.
  view.point = (meeting, seconds) => {
    if (!map) return;
    dots.forEach((dot) => dot.remove());
    const places = seconds === null ? [] : meeting.pair.map((number, k) => [placeAt(TRACKS[number], seconds), k]).filter(([place]) => place);
    const style = { radius: 6, color: "#ffffff", weight: 2, fillOpacity: 1, interactive: false };
    dots = places.map(([place, k]) => L.circleMarker(latLng(...place), { ...style, fillColor: PAIR_COLOURS[k] }).addTo(map));
  };
  return view;
})();

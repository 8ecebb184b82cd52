// The map: Leaflet with the user's chart or tiles, or with a net of degrees alone, and the canvas of the vessels over it.
import { Drawing } from "./drawing.js";
import { byId } from "./words.js";

const FRAME = 100;      // ms between two drawings
const SETTLING = 15000; // ms after the page is opened in which the map shows all vessels, unless the user moves it

export class ChartMap {
  // `view` returns what to draw: store, states, filters and chosen. `choose` is called with a vessel that is clicked, or null.
  constructor(settings, view, choose, areaDrawn) {
    this.view = view;
    this.drawn = 0;
    this.waits = false;
    this.fitted = 0;            // the vessels that the map was fitted to
    this.moved = false;
    this.map = L.map("map", { attributionControl: Boolean(settings.tiles), zoomSnap: 0.25, maxZoom: 19, minZoom: 2, fadeAnimation: false, zoomAnimation: false,
      inertia: false, keyboard: true });
    this.map.setView([settings.centre[1], settings.centre[0]], 12);
    L.control.scale({ maxWidth: 140, imperial: false }).addTo(this.map);
    if (settings.tiles) L.tileLayer(settings.tiles, { maxZoom: 19 }).addTo(this.map);
    if (settings.chart) this.addChart();
    this.drawing = new Drawing(byId("drawing"), this.map);
    this.map.on("move zoom resize viewreset", () => this.now());
    this.map.on("click", ({ containerPoint }) => { if (!this.asksArea) choose(this.drawing.near(containerPoint.x, containerPoint.y)); });
    this.map.on("mousemove", ({ containerPoint }) => {
      this.map.getContainer().style.cursor = this.asksArea ? "" : this.drawing.near(containerPoint.x, containerPoint.y) ? "pointer" : "";
    });
    for (const kind of ["pointerdown", "wheel", "keydown"]) this.map.getContainer().addEventListener(kind, () => { this.moved = true; });
    new ResizeObserver(() => this.map.invalidateSize({ animate: false })).observe(byId("map"));
    this.askAreas(areaDrawn);
  }

  async addChart() {
    const style = getComputedStyle(document.documentElement), colour = (name) => style.getPropertyValue(`--${name}`).trim();
    const answer = await fetch("/chart");
    if (!answer.ok) return;
    this.chart = L.geoJSON(await answer.json(), { interactive: false, style: { color: colour("coast"), weight: 1, fillColor: colour("land"), fillOpacity: 0.9 },
      pointToLayer: (_, at) => L.circleMarker(at, { radius: 2, color: colour("coast") }) }).addTo(this.map);
  }

  // Reads the colours again, after a change between day and night.
  recolour() {
    this.drawing.readColours();
    if (this.chart) { this.chart.remove(); this.addChart(); }
    this.now();
  }

  // Draws soon: at most ten times a second.
  soon() {
    if (this.waits) return;
    this.waits = true;
    setTimeout(() => requestAnimationFrame(() => { this.waits = false; this.now(); }), Math.max(0, this.drawn + FRAME - performance.now()));
  }

  now() {
    this.drawn = performance.now();
    const { store, states, filters, chosen } = this.view();
    const isNew = !this.moved && performance.now() < SETTLING && store.vessels.size > this.fitted;
    if (isNew || !this.fitted && store.vessels.size) this.fit(store);
    this.drawing.draw(store, states, filters, chosen);
  }

  // Shows all vessels.
  fit(store) {
    this.fitted = store.vessels.size;
    const places = [...store.vessels.values()].filter((vessel) => vessel.latitude !== undefined).map((vessel) => [vessel.latitude, vessel.longitude]);
    if (places.length) this.map.fitBounds(L.latLngBounds(places).pad(0.08), { animate: false, maxZoom: 15 });
  }

  show(places) {
    const known = places.filter(Boolean).map(([longitude, latitude]) => [latitude, longitude]);
    if (known.length === 1) this.map.panTo(known[0], { animate: false });
    else if (known.length) this.map.fitBounds(L.latLngBounds(known).pad(0.6), { animate: false, maxZoom: 15 });
  }

  // Lets the user draw an area: from where a button goes down to where it goes up. `areaDrawn` is called with the bounds so far, and whether
  // they are the last ones.
  askAreas(areaDrawn) {
    let corner = null;
    const { map } = this, container = map.getContainer();
    const bounds = (event) => L.latLngBounds(corner, map.mouseEventToLatLng(event));
    const end = (area) => {
      setTimeout(() => { this.asksArea = false; });         // after the click that the map makes of it
      map.dragging.enable();
      container.classList.remove("crosshair");
      corner = null;
      areaDrawn(area, true);
    };
    this.askArea = () => {
      this.asksArea = true;
      map.dragging.disable();
      container.classList.add("crosshair");
    };
    container.addEventListener("pointerdown", (event) => {
      if (!this.asksArea) return;
      corner = map.mouseEventToLatLng(event);
      container.setPointerCapture(event.pointerId);
    });
    container.addEventListener("pointermove", (event) => { if (corner) areaDrawn(bounds(event), false); });
    container.addEventListener("pointerup", (event) => { if (corner) end(bounds(event)); });
    container.addEventListener("pointercancel", () => { if (this.asksArea) end(null); });
  }
}

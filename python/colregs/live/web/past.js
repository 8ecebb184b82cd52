// Earlier moments: the slider, and the state of the moment that it asks for.
import { Store } from "./store.js";
import { byId, date, time } from "./words.js";

const WAIT = 250, AGAIN = 1000, STEP = 10;     // ms after the last move of the slider, and after too many questions; s between two moments

export class Past {
  constructor(live, changed) {
    Object.assign(this, { live, changed, store: null, asked: null, timer: 0 });
    this.slider = byId("slider");
    this.slider.addEventListener("input", () => this.ask(Number(this.slider.value)));
    this.moment = byId("moment");
    this.moment.addEventListener("change", () => {
      const at = Date.parse(`${this.moment.value.trim().replace(" ", "T")}Z`) / 1000;
      this.moment.blur();
      if (Number.isFinite(at)) this.ask(at); else this.fitMoment();
    });
    byId("earlier").addEventListener("click", () => this.move(-60));
    byId("later").addEventListener("click", () => this.move(60));
    byId("now").addEventListener("click", () => this.end());
    byId("time").addEventListener("submit", (event) => event.preventDefault());
  }

  // Fits the slider to the day files; while nothing earlier is shown it stands at now.
  fit() {
    const { clock, health } = this.live;
    if (!clock || !health.first) return;
    this.slider.min = Math.floor(health.first / STEP) * STEP;
    this.slider.max = Math.ceil(clock / STEP) * STEP;
    if (this.asked === null) this.slider.value = this.slider.max;
    this.fitMoment();
  }

  // Shows the moment in its field, unless the user is writing there.
  fitMoment() {
    const at = Number(this.slider.value);
    if (document.activeElement !== this.moment) this.moment.value = `${date(at)} ${time(at)}`;
  }

  move(seconds) { this.ask((this.asked ?? this.live.clock) + seconds); }

  ask(at) {
    if (!this.live.clock) return;
    if (at >= this.live.clock - STEP) { this.end(); return; }
    this.asked = Math.max(Number(this.slider.min), Math.round(at / STEP) * STEP);
    this.slider.value = this.asked;
    this.fitMoment();
    byId("past").hidden = false;
    byId("past-time").textContent = `${date(this.asked)} ${time(this.asked)} UTC`;
    byId("past-words").textContent = "reading \u2026";
    clearTimeout(this.timer);
    this.timer = setTimeout(() => this.read(this.asked), WAIT);
  }

  async read(at) {
    try {
      const answer = await fetch(`/api/history?at=${at}`);
      if (answer.status === 429 && at === this.asked) { this.timer = setTimeout(() => this.read(at), AGAIN); return; }
      if (!answer.ok) throw new Error((await answer.json()).fault);
      const snapshot = await answer.json();
      if (at !== this.asked) return;
      this.store = new Store();
      this.store.load(snapshot);
      byId("past-words").textContent = "as the settled rows have it.";
    } catch (fault) {
      if (at !== this.asked) return;
      byId("past-words").textContent = `cannot be read: ${fault.message}`;
    }
    this.changed();
  }

  end() {
    clearTimeout(this.timer);
    this.store = this.asked = null;
    byId("past").hidden = true;
    this.fit();
    this.changed();
  }
}

// What is shown: by vessel, rule, kind, state, rest and area.
import { byId, element } from "./words.js";

export class Filters {
  constructor(changed) {
    this.area = null;
    this.fields = Object.fromEntries(["vessel", "rule", "kind", "state", "rest"].map((name) => [name, byId(`filter-${name}`)]));
    for (const field of Object.values(this.fields)) field.addEventListener("input", changed);
    byId("clear").addEventListener("click", () => {
      for (const field of Object.values(this.fields)) { if (field.type === "checkbox") field.checked = false; else field.value = ""; }
      this.area = null;
      changed();
    });
  }

  get rest() { return this.fields.rest.checked; }

  // Adds the rules and kinds that can be chosen.
  offer(rules, kinds) {
    this.fields.rule.append(...rules.map((rule) => element("option", { value: rule }, rule)));
    this.fields.kind.append(...kinds.map((kind) => element("option", {}, kind)));
  }

  hasName(...names) {
    const asked = this.fields.vessel.value.trim().toLowerCase();
    return !asked || names.some((name) => String(name).toLowerCase().includes(asked));
  }

  inArea(...places) {
    return !this.area || places.some((place) => place && this.area.contains([place[1], place[0]]));
  }

  placeOf(store, mmsi) {
    const vessel = store.vessels.get(mmsi);
    return vessel ? [vessel.longitude, vessel.latitude] : null;
  }

  ofKind(store, a, b) {
    const asked = this.fields.kind.value;
    if (!asked) return true;
    const one = store.encounters.get(`${Math.min(a, b)}-${Math.max(a, b)}`);
    return Boolean(one && one.kinds.includes(asked));
  }

  alarm(store, alarm) {
    const { rule, state } = this.fields, open = alarm.state !== "withdrawn" && !(alarm.note && alarm.note.acknowledged);
    return (this.rest || alarm.at_rest !== "both") && (!rule.value || alarm.rule === rule.value)
      && (!state.value || (state.value === "open" ? open : alarm.state === state.value))
      && this.hasName(alarm.subject_name, alarm.other_name, alarm.subject, alarm.other) && this.ofKind(store, alarm.subject, alarm.other)
      && this.inArea(alarm.position, this.placeOf(store, alarm.subject), this.placeOf(store, alarm.other));
  }

  encounter(store, one) {
    return (this.rest || one.at_rest !== "both") && (!this.fields.kind.value || one.kinds.includes(this.fields.kind.value))
      && this.hasName(...one.names, ...one.pair) && this.inArea(...one.pair.map((mmsi) => this.placeOf(store, mmsi)));
  }

  row(store, row) {
    const { rule, kind } = this.fields, own = row.encounter;      // a row `meeting` has its kind
    return (!rule.value || row.rule === rule.value) && (own ? !kind.value || own === kind.value : this.ofKind(store, row.subject, row.other))
      && this.hasName(row.subject_name, row.other_name, row.subject, row.other)
      && this.inArea(this.placeOf(store, row.subject), this.placeOf(store, row.other));
  }

  vessel(vessel) {
    return this.hasName(vessel.name, vessel.mmsi) && this.inArea([vessel.longitude, vessel.latitude]);
  }

  words() {
    const { vessel, rule, kind, state, rest } = this.fields;
    return [vessel.value && `vessel ${vessel.value}`, rule.value, kind.value, state.selectedOptions[0].value && state.selectedOptions[0].textContent,
      rest.checked && "at rest too", this.area && "an area"].filter(Boolean).join(", ");
  }
}

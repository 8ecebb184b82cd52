// What a vessel is coloured by: the gravest of her alarms and encounters.

export const STATES = [["calm", "under way"], ["rest", "at rest"], ["met", "in an encounter"], ["soon", "preliminary alarm"], ["broken", "alarm"], ["silent", "not heard"]];
const SILENT = 600, REST = 0.5;     // s without a report; knots

// The state of each vessel, by her MMSI.
export function statesOf(store) {
  const found = new Map();
  for (const vessel of store.vessels.values()) {
    const silent = store.clock - vessel.time > SILENT, rest = vessel.speed !== null && vessel.speed < REST;
    found.set(vessel.mmsi, silent ? "silent" : rest ? "rest" : "calm");
  }
  const raise = (mmsi, state) => { if (found.has(mmsi) && found.get(mmsi) !== "silent") found.set(mmsi, state); };
  for (const one of store.encounters.values()) if (one.at_rest !== "both") for (const mmsi of one.pair) raise(mmsi, "met");
  for (const [state, colour] of [["preliminary", "soon"], ["settled", "broken"]]) {
    for (const alarm of store.alarms.values()) {
      const shown = alarm.state === state && alarm.lasting && alarm.at_rest !== "both" && !(alarm.note && alarm.note.acknowledged);
      if (shown) raise(alarm.subject, colour);
    }
  }
  return found;
}

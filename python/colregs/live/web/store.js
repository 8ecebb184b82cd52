// The state of the stream as the server sends it: a snapshot, and then numbered changes.
import { mercator } from "./words.js";

const MOST_ROWS = 500, TRACK_SECONDS = 3600, MOST_PLACES = 400;

export class Store {
  constructor() {
    this.vessels = new Map();
    this.alarms = new Map();
    this.encounters = new Map();
    this.rows = [];
    this.health = {};
    this.clock = null;
    this.number = null;
    this.epoch = "";
  }

  // Takes a snapshot instead of all that was known.
  load(snapshot) {
    this.vessels.clear();
    for (const values of snapshot.vessels) this.takeVessel(values);
    for (const about of snapshot.about) this.takeAbout(about);
    for (const [mmsi, flat] of Object.entries(snapshot.tracks || {})) {
      const vessel = this.vessels.get(Number(mmsi));
      if (!vessel) continue;
      vessel.track = [];
      for (let k = flat.length - 3; k >= 0; k -= 3) vessel.track.push([flat[k], mercator(flat[k + 1], flat[k + 2])]);
    }
    this.alarms = new Map(snapshot.alarms.map((alarm) => [alarm.id, alarm]));
    this.encounters = new Map(snapshot.encounters.map((one) => [one.id, one]));
    this.rows = snapshot.rows.slice(-MOST_ROWS);
    this.health = snapshot.health || {};
    this.clock = snapshot.clock;
    if (snapshot.kind === "snapshot") [this.number, this.epoch] = [snapshot.n, snapshot.epoch];
  }

  // Takes the next change; returns false if one is missing.
  apply(change) {
    if (change.n <= this.number) return true;
    if (change.n !== this.number + 1) return false;
    this.number = change.n;
    this.clock = change.clock;
    for (const values of change.vessels || []) this.takeVessel(values);
    for (const about of change.about || []) this.takeAbout(about);
    for (const mmsi of change.gone || []) this.vessels.delete(mmsi);
    for (const alarm of change.alarms || []) this.alarms.set(alarm.id, alarm);
    for (const id of change.dropped || []) this.alarms.delete(id);
    for (const one of change.encounters || []) this.encounters.set(one.id, one);
    for (const id of change.over || []) this.encounters.delete(id);
    if (change.rows) this.rows = this.rows.concat(change.rows).slice(-MOST_ROWS);
    if (change.health) this.health = change.health;
    return true;
  }

  takeVessel([mmsi, time, longitude, latitude, speed, course, heading]) {
    let vessel = this.vessels.get(mmsi);
    if (!vessel) this.vessels.set(mmsi, vessel = { mmsi, name: "", type: "", length: 0, status: "", track: [], time: 0 });
    if (time < vessel.time) return;
    Object.assign(vessel, { time, longitude, latitude, speed, course, heading, place: mercator(longitude, latitude) });
    const { track } = vessel;
    if (!track.length || track[track.length - 1][0] < time) track.push([time, vessel.place]);
    if (track.length > MOST_PLACES || track[0][0] < time - 2 * TRACK_SECONDS) {
      vessel.track = track.filter(([at]) => at >= time - TRACK_SECONDS).slice(-MOST_PLACES / 2);
    }
  }

  takeAbout(about) {
    const vessel = this.vessels.get(about.mmsi);
    if (vessel) Object.assign(vessel, about);
  }

  name(mmsi) {
    const vessel = this.vessels.get(mmsi);
    return vessel && vessel.name || String(mmsi);
  }
}

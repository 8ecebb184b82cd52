// Elements and words. Whatever comes from the air becomes text, never markup.

export const MILE = 1852;

// A new element: its attributes, and then its children, elements or text.
export function element(tag, attributes = {}, ...children) {
  const made = document.createElement(tag);
  for (const [name, value] of Object.entries(attributes)) {
    if (value === null || value === undefined || value === false) continue;
    if (name === "class") made.className = value;
    else made.setAttribute(name, value === true ? "" : value);
  }
  made.append(...children.filter((child) => child !== null && child !== undefined && child !== ""));
  return made;
}

export const byId = (name) => document.getElementById(name);

const two = (value) => String(value).padStart(2, "0");

// The time of day of a moment in UTC.
export function time(seconds) {
  const at = new Date(seconds * 1000);
  return `${two(at.getUTCHours())}:${two(at.getUTCMinutes())}:${two(at.getUTCSeconds())}`;
}

export function date(seconds) {
  const at = new Date(seconds * 1000);
  return `${at.getUTCFullYear()}-${two(at.getUTCMonth() + 1)}-${two(at.getUTCDate())}`;
}

// A place on the map of the web: 0 to 1 from west to east, and from north to south.
export function mercator(longitude, latitude) {
  const sine = Math.max(-0.9999, Math.min(0.9999, Math.sin(latitude * Math.PI / 180)));
  return [longitude / 360 + 0.5, 0.5 - Math.log((1 + sine) / (1 - sine)) / (4 * Math.PI)];
}

// A length of time in words, as 4 min 10 s.
export function lasting(seconds) {
  const whole = Math.max(0, Math.round(seconds)), minutes = Math.floor(whole / 60);
  if (minutes >= 2880) return `${Math.floor(minutes / 1440)} days`;
  if (minutes >= 120) return `${Math.floor(minutes / 60)} h ${minutes % 60} min`;
  if (minutes >= 10) return `${minutes} min`;
  return minutes ? `${minutes} min ${whole % 60} s` : `${whole} s`;
}

export function distance(metres) {
  if (metres === null || metres === undefined) return "unknown";
  return metres < MILE ? `${Math.round(metres)} m` : `${(metres / MILE).toFixed(1)} NM`;
}

export function degrees(value, names) {
  const minutes = Math.round(Math.abs(value) * 60000) / 1000, whole = Math.floor(minutes / 60);
  return `${whole}\u00b0${(minutes - whole * 60).toFixed(2).padStart(5, "0")}' ${names[value < 0 ? 1 : 0]}`;
}

export const place = (position) => position ? `${degrees(position[1], "NS")} ${degrees(position[0], "EW")}` : "";

// The meeting of an alarm, and its acknowledgement.
import { byId, element } from "./words.js";

const path = (alarm, what) => `/api/alarms/${encodeURIComponent(alarm.id)}/${what}`;

// Shows the meeting of an alarm as the page of a case does.
export function showMeeting(alarm) {
  byId("meeting-title").textContent = `${alarm.subject_name} and ${alarm.other_name}: ${alarm.rule}`;
  byId("meeting-case").href = path(alarm, "case");
  byId("meeting-page").src = `${path(alarm, "meeting")}#meeting1`;
  byId("meeting").showModal();
}

let asked = null;

export function askAcknowledgement(alarm) {
  asked = alarm;
  byId("acknowledge-title").textContent = `${alarm.subject_name} and ${alarm.other_name}: ${alarm.rule}`;
  byId("acknowledge-words").textContent = alarm.state === "preliminary" ? "The alarm is preliminary. The acknowledgement stays with it if it settles." : "";
  byId("acknowledge-note").value = alarm.note ? alarm.note.note : "";
  byId("acknowledge-fault").textContent = "";
  byId("acknowledge-undo").hidden = !(alarm.note && alarm.note.acknowledged);
  byId("acknowledge").showModal();
  byId("acknowledge-note").focus();
}

async function store(acknowledged) {
  try {
    const answer = await fetch(path(asked, "acknowledgement"), { method: "POST", headers: { "Content-Type": "application/json" },
      body: JSON.stringify({ acknowledged, note: byId("acknowledge-note").value }) });
    if (!answer.ok) throw new Error(`the server answers ${answer.status}: ${await answer.text()}`);
    byId("acknowledge").close();
  } catch (fault) {
    byId("acknowledge-fault").textContent = `Not stored: ${fault.message}`;
  }
}

// Makes the dialogs ready.
export function begin(keys, settings) {
  byId("acknowledge-store").addEventListener("click", () => store(true));
  byId("acknowledge-undo").addEventListener("click", () => store(false));
  byId("acknowledge-note").addEventListener("keydown", (event) => { if (event.key === "Enter" && (event.ctrlKey || event.metaKey)) store(true); });
  byId("meeting-close").addEventListener("click", () => byId("meeting").close());
  byId("meeting").addEventListener("close", () => { byId("meeting-page").src = "about:blank"; });
  byId("keys").append(...keys.map(([key, words]) => element("tr", {}, element("td", {}, element("kbd", {}, key)), element("td", {}, words))));
  byId("promises").textContent = `A settled alarm comes ${settings.delay} s after its deciding step, and no later line changes it. A preliminary one comes at once: it is what `
    + "the program says of the lines so far. It settles, or is withdrawn.";
}

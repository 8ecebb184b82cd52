// The page: its words, its tables, and what happens when a meeting is chosen.
"use strict";
const Page = (() => {
  let chosen = null, chosenVerdict = null, meetingTable = null, verdictTable = null;
  const byId = (id) => document.getElementById(id);

  function list(id, words) { byId(id).replaceChildren(...words.map((word) => element("li", word))); }

  function fillHead() {
    byId("title").textContent = HELD.title;
    byId("window").textContent = `${HELD.window}, ${counted(HELD.steps, "step")} of ${HELD.tick} s`;
    list("summary", HELD.summary);
    list("doubts", HELD.doubts.length ? HELD.doubts : ["Nothing was found."]);
  }

  // The scenario as it is, with the reasons behind # in another colour.
  function fillScenario() {
    list("reasons", HELD.reasons);
    byId("scenario-text").replaceChildren(...HELD.scenario.split("\n").flatMap((line) => {
      const at = line.search(/(^|\s)#/);
      return at < 0 ? [`${line}\n`] : [line.slice(0, at), element("span", line.slice(at), { class: "why" }), "\n"];
    }));
  }

  // When a row ends; with its day where that is another than that of its beginning.
  function endWords(row) {
    const [begin, end] = [utc(begins(row)), utc(ends(row))];
    return begin.slice(0, -8) === end.slice(0, -8) ? end.slice(-8) : end;
  }

  function link(number) { return element("a", String(number + 1), { href: `#meeting${number + 1}` }); }

  function fillMeetings() {
    const pairWords = (m, k) => [fullName(m.pair[k]), element("br"), element("span", [m.kinds[k], m.what[k]].filter(Boolean).join("; "), { class: "quiet" })];
    const columns = [
      { title: "No.", kind: "number", of: (m) => link(m.number), by: (m) => m.number },
      { title: "Begins (UTC)", kind: "time", of: (m) => utc(begins(m)), by: (m) => m.first },
      { title: "Ends", kind: "time", of: (m) => endWords(m), by: (m) => m.last },
      { title: "First vessel", of: (m) => pairWords(m, 0), by: (m) => nameOf(m.pair[0]) },
      { title: "Second vessel", of: (m) => pairWords(m, 1), by: (m) => nameOf(m.pair[1]) },
      { title: "Nearest, m", kind: "number", of: nearWords, by: nearest },
      { title: "nautical miles", kind: "number", of: (m) => miles(m.least), by: (m) => m.least },
      { title: "at (UTC)", kind: "time", of: (m) => clockOnly(m.nearest), by: (m) => m.nearest },
      { title: "Rules", of: (m) => chips(m), by: (m) => -m.verdicts.filter((v) => v.broken).length },
      { title: "Marks", of: markWords, by: (m) => m.marks.join() },
    ];
    const words = (m) => [...m.pair.map(fullName), ...m.kinds, ...m.verdicts.map((v) => HELD.rules[v.rule].name), m.rest.length ? "still" : "", m.lost, ...m.marks, ...m.what].join(" ");
    const rows = [...HELD.meetings].sort((p, q) => isMarked(p) - isMarked(q));
    meetingTable = new Table(byId("meetings"), columns, rows, { words, choose: (m) => choose(m), isChosen: (m) => m === chosen,
      mark: (row, m) => row.setAttribute("data-meeting", m.number + 1), onFilter: (found) => Times.show(found) });
    meetingTable.addBox("with a broken rule", (m) => m.verdicts.some((v) => v.broken));
    meetingTable.addBox("both under way", (m) => !m.rest.length);
    meetingTable.addBox("contact lost", (m) => m.lost !== "");
    addMarkBoxes(meetingTable);
    meetingTable.filter();
  }

  // How near two vessels came, or would have come if contact with one was lost while they were closing.
  function nearest(meeting) { return meeting.ahead === null ? meeting.least : Math.min(meeting.ahead, meeting.least); }

  function nearWords(meeting) {
    if (!meeting.lost) return metres(meeting.least);
    const ahead = nearest(meeting) < meeting.least ? [element("br"), element("span", `${metres(meeting.ahead)} if both went on`, { class: "lost" })] : [];
    return [`${metres(meeting.least)} heard`, ...ahead];
  }

  // A row with a mark by which it may be a false alarm. Such rows follow the others.
  function isMarked(row) { return row.marks.some((mark) => mark !== "contact lost"); }

  function addMarkBoxes(table) {
    table.addBox("without marks", (row) => !isMarked(row));
    const found = new Set(table.rows.flatMap((row) => row.marks));
    for (const mark of Object.keys(HELD.marks)) {
      if (found.has(mark) && mark !== "contact lost") table.addBox(`without ${mark}`, (row) => !row.marks.includes(mark));
    }
  }

  // The marks of a row, with the test of each as its title; who lies still and how contact was lost in words.
  function markWords(row) {
    const words = { "at rest": Array.isArray(row.rest) ? stillWords(row.rest, row.pair) : restWords(row), "contact lost": row.lost };
    const made = row.marks.map((mark) => element("span", words[mark] || mark, { class: mark === "contact lost" ? "lost" : "still", title: HELD.marks[mark] }));
    return made.length ? made.flatMap((each) => [each, " "]) : [""];
  }

  // One chip for each rule, vessel and value of a meeting.
  function chips(meeting) {
    const seen = new Set();
    const found = meeting.verdicts.filter((v) => { const key = [v.rule, v.broken].join(); return !seen.has(key) && seen.add(key); });
    return found.length ? found.map(chip) : [element("span", "none broken or open", { class: "quiet" })];
  }

  function fillVerdicts() {
    const columns = [
      { title: "Meeting", kind: "number", of: (v) => v.meeting === null ? "none" : link(v.meeting), by: (v) => v.meeting === null ? -1 : v.meeting },
      { title: "From (UTC)", kind: "time", of: (v) => utc(begins(v)), by: (v) => v.first },
      { title: "to", kind: "time", of: (v) => endWords(v), by: (v) => v.last },
      { title: "Who is bound", of: (v) => vesselWords(v, 0), by: (v) => nameOf(v.pair[0]) },
      { title: "Towards", of: (v) => vesselWords(v, 1), by: (v) => nameOf(v.pair[1]) },
      { title: "Verdict", of: (v) => chip(v), by: (v) => HELD.rules[v.rule].name + v.broken },
      { title: "The rule in words", of: (v) => HELD.rules[v.rule].words, by: (v) => v.rule },
      { title: "Marks", of: markWords, by: (v) => v.marks.join() },
    ];
    const words = (v) => [...v.pair.map(fullName), HELD.rules[v.rule].name, HELD.rules[v.rule].words, v.broken ? "broken" : "open", v.rest ? "still" : "", ...v.marks, ...v.what].join(" ");
    const vesselWords = (v, k) => [fullName(v.pair[k]), element("br"), element("span", v.what[k], { class: "quiet" })];
    const rows = [...HELD.verdicts].sort((p, q) => isMarked(p) - isMarked(q));
    verdictTable = new Table(byId("verdicts"), columns, rows, { words, isChosen: (v) => v === chosenVerdict,
      choose: (v) => { if (v.meeting !== null) choose(HELD.meetings[v.meeting], v); }, mark: (row, v) => row.setAttribute("data-verdict", v.number + 1) });
    verdictTable.addBox("broken alone", (v) => v.broken);
    verdictTable.addBox("both under way", (v) => !v.rest);
    addMarkBoxes(verdictTable);
    verdictTable.filter();
  }

  function fillMarks() {
    list("marks", []);
    byId("marks").append(...Object.entries(HELD.marks).map(([mark, test]) => {
      const row = element("li"), count = (rows) => rows.filter((one) => one.marks.includes(mark)).length;
      row.append(element("b", mark), `: ${test} (${counted(count(HELD.meetings), "meeting")}, ${counted(count(HELD.verdicts), "verdict")})`);
      return row;
    }));
  }

  function restWords(verdict) {
    return { both: "both lie still", subject: `${nameOf(verdict.pair[0])} lies still`, other: `${nameOf(verdict.pair[1])} lies still` }[verdict.rest];
  }

  function fillOthers() {
    const plain = (id, columns, rows, more) => new Table(byId(id), columns.map(([title, at, kind]) => ({
      title, kind, of: (row) => String(row[at] === null || row[at] === undefined ? "" : row[at]), by: (row) => row[at] })), rows, more).filter();
    plain("rules", [["Rule", 0], ["In words", 1], ["Steps of all pairs", 2, "number"], ["holds", 3, "number"], ["broken", 4, "number"],
      ["open", 5, "number"], ["Broken stretches", 6, "number"]], HELD.rules.map((rule) => [rule.name, rule.words, ...(rule.total || [])]));
    plain("vessels", [["MMSI", "mmsi", "number"], ["Name", "name"], ["Type", "kind"], ["Type of ship", "type", "number"], ["Length, m", "length", "number"],
      ["Accepted reports", "reports", "number"]], HELD.vessels.map((vessel, number) => ({ ...vessel, number })), { words: (v) => `${v.mmsi} ${v.name}`, isChosen: () => false,
      choose: (v) => { MapView.vessel(v.number); byId("see").scrollIntoView(); } });
    plain("lines", [["Outcome", 0], ["Lines", 1, "number"], ["What it means", 2]], HELD.lines);
    list("sources", HELD.sources);
    plain("files", [["File", 0], ["Bytes", 2, "number"], ["SHA-256", 1, "sum"]], HELD.files);
    byId("version").textContent = HELD.version;
    byId("commands").textContent = HELD.commands.join("\n");
  }

  // Which verdicts stand at which value of the number that was swept.
  function fillSweep() {
    byId("sweep").hidden = !HELD.sweep;
    if (!HELD.sweep) return;
    const { key, values, rows, changing } = HELD.sweep;
    byId("sweep-words").textContent = `The audit with ${key} from ${values[0]} to ${values[values.length - 1]}: ${changing} of ${counted(rows.length, "verdict")} `
      + "depend on the number, and stand first.";
    const cell = (word) => (word ? element("span", word, { class: word === "broken" ? "swept" : "quiet" }) : "");
    const columns = [["Who is bound", 0], ["Towards", 1], ["Rule", 2]].map(([title, at]) => ({ title, of: (row) => row[at], by: (row) => row[at] }));
    columns.push({ title: "From (UTC)", kind: "time", of: (row) => utc(row[3]), by: (row) => row[3] }, { title: "to", kind: "time", of: (row) => clockOnly(row[4]), by: (row) => row[4] });
    values.forEach((value, k) => columns.push({ title: String(value), of: (row) => cell(row[5 + k]), by: (row) => row[5 + k] }));
    const table = new Table(byId("sweep"), columns, rows.map((row) => Object.assign([...row], { text: undefined })), { words: (row) => row.slice(0, 3).join(" ") });
    table.addBox("that depend on the number", (row) => new Set(row.slice(5)).size > 1);
    table.filter();
  }

  function margin(meeting) { return Math.max(300, Math.min(1800, (ends(meeting) - begins(meeting)) / 3)); }

  function describe(meeting) {
    const [a, b] = meeting.pair;
    const part = (k) => `${nameOf(meeting.pair[k])}${meeting.what[k] ? ` (${meeting.what[k]})` : ""} ${meeting.kinds[k]}`;
    byId("chosen").textContent = `Meeting ${meeting.number + 1}: ${nameOf(a)} and ${nameOf(b)}`;
    const near = `${lengths(meeting.least)} at ${clockOnly(meeting.nearest)}`;
    const words = element("span", `${meeting.told} `), more = element("span", `${utc(begins(meeting))} to ${endWords(meeting)} UTC. ${part(0)}; ${part(1)}. Nearest ${near}. `);
    const still = markWords(meeting);
    const when = (v) => `${clockOnly(begins(v))} to ${clockOnly(ends(v))}`;
    const rules = meeting.verdicts.flatMap((v) => [element("br"), chip(v), `${nameOf(v.pair[0])}, ${when(v)}: ${HELD.rules[v.rule].words}`]);
    const duties = dutiesOf(meeting).flatMap((duty) => [element("br"), element("span", duty, { class: "duty" })]);
    byId("chosen-words").replaceChildren(words, element("br"), more, ...still, ...duties, ...(rules.length ? rules : [element("span", "No rule is broken or open.")]));
  }

  function choose(meeting, verdict) {
    chosen = meeting;
    chosenVerdict = verdict || null;
    const first = Math.max(0, begins(meeting) - margin(meeting)), last = Math.min(HELD.steps * HELD.tick, ends(meeting) + margin(meeting));
    describe(meeting);
    Charts.draw(meeting, first, last);
    MapView.choose(meeting, first, last);
    Playback.choose(meeting, first, last);
    Times.choose(meeting);
    meetingTable.draw();
    verdictTable.draw();
    if (location.hash !== `#meeting${meeting.number + 1}`) history.replaceState(null, "", `#meeting${meeting.number + 1}`);
    const side = byId("see").getBoundingClientRect();
    if (side.bottom < 80 || side.top > innerHeight - 80) byId("see").scrollIntoView();
  }

  function followHash() {
    const found = /^#meeting(\d+)$/.exec(location.hash), meeting = found && HELD.meetings[Number(found[1]) - 1];
    if (meeting) { choose(meeting); byId("see").scrollIntoView(); }
    return Boolean(meeting);
  }

  function step(by) {
    const rows = meetingTable.filtered, at = rows.indexOf(chosen);
    const next = rows[at < 0 ? 0 : at + by];
    if (next) choose(next);
  }

  function start() {
    fillHead();
    MapView.start();
    Times.onChoose = (meeting) => choose(meeting);
    fillMeetings();
    fillVerdicts();
    fillOthers();
    fillScenario();
    fillMarks();
    fillSweep();
    byId("earlier").addEventListener("click", () => step(-1));
    byId("later").addEventListener("click", () => step(1));
    byId("whole").addEventListener("click", () => MapView.whole());
    addEventListener("hashchange", followHash);
    addEventListener("resize", () => Times.draw());
    addEventListener("beforeprint", () => paper(true));
    addEventListener("afterprint", () => paper(false));
    if (!HELD.meetings.length) noMeeting();
    else if (!followHash()) showFirst();
    document.documentElement.dataset.ready = "yes";
  }

  // On paper map and chart by time have the paper's width, and what the marks mean is unfolded.
  function paper(on) {
    document.body.classList.toggle("paper", on);
    byId("meetings").querySelector("details").open = on;
    MapView.resize();
    if (on) Times.draw(45, 690); else Times.draw();
  }

  function noMeeting() {
    byId("chosen").textContent = "No two vessels met";
    byId("chosen-words").textContent = "So there are no charts.";
    for (const id of ["earlier", "later"]) byId(id).hidden = true;
  }

  // At the beginning the nearest meeting of those with a broken rule stands in the charts, and the map shows all.
  function showFirst() {
    const moving = HELD.meetings.filter((m) => !isMarked(m) && m.verdicts.some((v) => v.broken));
    const from = moving.length ? moving : HELD.meetings;
    choose(from.reduce((best, m) => (nearest(m) < nearest(best) ? m : best)));
    MapView.whole();
    history.replaceState(null, "", location.pathname);
    scrollTo(0, 0);
  }
  return { start };
})();
Page.start();

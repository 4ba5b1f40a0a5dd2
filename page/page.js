"use strict";
/* The page: takes the text, has it run, and shows what comes of it. */

/* Up to this many words arrows are drawn and rows shown; behind them the rest is told as a number. */
const MOST_ROWS = 4000;
/* How wide a lane of arrows is, and how far the lanes stand from the table, in pixels. */
const LANE = 9;
/* Texts that are longer are run only once nothing was typed for a while, in milliseconds. */
const LONG_TEXT = 100000;
const PAUSE = 250;

const part = (name) => document.getElementById(name);
const embedded = (name) => part(name).textContent;

const state = { engine: null, examples: {}, timer: 0, arrows: [], shown: null };

/* The views that a command has; the first is chosen where the one before has none. */
function viewsOf(command) {
  if (command === "asm") return ["words", "listing", "roles", "report"];
  if (command === "dis" || command === "undis") return ["words", "report"];
  return command === "link" ? ["words", "report"] : ["report"];
}

/* The report whose words are shown, for what a command was given and what it wrote. */
function wordsShown(command, given, written) {
  return command === "dis" ? given : written;
}

/* An element with a text. */
function element(name, text, kind) {
  const made = document.createElement(name);
  made.textContent = text;
  if (kind) made.className = kind;
  return made;
}

/* Numbers the lines, and marks the one that is refused. */
function showNumbers(bad) {
  const count = part("text").value.split("\n").length;
  const numbers = part("numbers");
  numbers.replaceChildren();
  for (let number = 0; number < count; number += 1) {
    numbers.append(element("span", String(number + 1), number === bad ? "bad" : ""), "\n");
  }
  numbers.scrollTop = part("text").scrollTop;
}

/* Says why there is nothing, at its line, and takes the line into view. */
function showFault(answer, given) {
  const fault = answer.status === 0 ? "" : answer.text.trimEnd();
  const bad = fault ? lineOfFault(fault, given) : null;
  part("fault").textContent = fault ? `status ${answer.status}: ${fault}` : "status 0";
  part("fault").className = fault ? "" : "right";
  showNumbers(bad);
  part("text").setAttribute("aria-invalid", fault ? "true" : "false");
  const height = 22.4;
  const text = part("text");
  if (bad !== null && (bad * height < text.scrollTop || (bad + 2) * height > text.scrollTop + text.clientHeight)) {
    text.scrollTop = Math.max(0, (bad - 3) * height);
  }
}

/* The rows of a report: each word with its form, its region, and the item whose first word it is: the last of those at
 * its place, since the others have no word. */
function rowsOf(report, given) {
  const lines = state.engine.run("dis", false, report.words.map((word) => `word ${word.place} ${word.digits}\n`).join(""));
  const forms = lines.status === 0 ? lines.text.split("\n") : [];
  const source = given.split("\n");
  const items = new Map();
  const numbers = itemLines(given);
  report.items.forEach((place, index) => {
    const line = source[numbers[index]] ?? "";
    if (!line.startsWith("bind ")) items.set(place, line);
  });
  return report.words.map((word, index) => ({
    ...word,
    line: forms[index] ?? "",
    form: formOf(forms[index] ?? ""),
    region: regionOf(report, word.place),
    item: regionOf(report, word.place) === "items" ? items.get(word.place) ?? "" : "",
  }));
}

/* A line of the table that is no word: a label, or where an island or the pool begins. */
function headingsAt(report, place) {
  const texts = report.labels.filter((label) => label.place === place).map((label) => `${label.name}:`);
  report.islands.filter(({ begin }) => begin === place).forEach(({ begin, end, isData }) => {
    texts.push(`${isData ? "data" : "island"} from ${begin} to ${end}`);
  });
  if (report.pool === place) texts.push(`pool from ${place}`);
  return texts;
}

/* The row of the table of a word. */
function rowOf(word) {
  const row = element("tr", "", word.region);
  row.tabIndex = -1;
  row.dataset.place = word.place;
  for (const text of [String(word.place), word.digits, word.form.row, word.item]) row.append(element("td", text));
  return row;
}

/* Tells the fields of a word, and marks the arrows that begin or end there. */
function showFields(word) {
  const fields = part("fields");
  const values = word.form.fields.map(([name, value]) => `${name}=${value}`).join(" ");
  const target = targetOf(word.form, word.place);
  fields.replaceChildren(element("b", `${word.place}: ${word.digits} ${word.form.row}`), ` ${values || word.line.replace(/^Data /, "")}`);
  if (target) fields.append(` → ${target.place}`);
  for (const { from, to, path } of state.arrows) {
    path.classList.toggle("chosen", from === word.place || to === word.place);
  }
}

/* The arrows between words: of branches, and of loads of literals; from the pool only where a branch leads there. */
function arrowsOf(words) {
  const places = new Set(words.map((word) => word.place));
  const arrows = [];
  const reached = new Set();
  for (let turn = 0, more = true; more && turn < 4; turn += 1) {
    more = false;
    for (const word of words) {
      const target = targetOf(word.form, word.place);
      const counts = word.region !== "pool" || reached.has(word.place);
      if (!target || !counts || !places.has(target.place) || word.drawn) continue;
      word.drawn = true;
      more = true;
      arrows.push({ from: word.place, to: target.place, isLoad: target.isLoad });
      if (!target.isLoad) reached.add(target.place);
    }
  }
  return arrows;
}

/* The lane of each arrow: short ones inside, and none over another in one lane. */
function lanesOf(arrows) {
  const ends = [];
  const ordered = [...arrows].sort((one, other) => Math.abs(one.to - one.from) - Math.abs(other.to - other.from));
  for (const arrow of ordered) {
    const low = Math.min(arrow.from, arrow.to);
    const high = Math.max(arrow.from, arrow.to);
    let lane = ends.findIndex((taken) => taken.every(([begin, end]) => high < begin || end < low));
    if (lane < 0) lane = ends.push([]) - 1;
    ends[lane].push([low, high]);
    arrow.lane = Math.min(lane, 12);
  }
  return Math.min(ends.length, 13);
}

/* Draws the arrows in the gutter beside the table. */
function drawArrows(arrows) {
  const svg = part("arrows");
  const lanes = lanesOf(arrows);
  const gutter = 24 + lanes * LANE;
  const table = part("rows");
  table.style.setProperty("--gutter", `${gutter}px`);
  svg.replaceChildren();
  svg.setAttribute("width", gutter);
  svg.setAttribute("height", table.offsetTop + table.offsetHeight);
  const height = new Map();
  for (const row of table.tBodies[0].rows) {
    if (row.dataset.place !== undefined) height.set(Number(row.dataset.place), row.offsetTop + row.offsetHeight / 2);
  }
  const make = (name, kind, values) => {
    const made = document.createElementNS("http://www.w3.org/2000/svg", name);
    made.setAttribute("class", kind);
    for (const [key, value] of Object.entries(values)) made.setAttribute(key, value);
    svg.append(made);
    return made;
  };
  state.arrows = arrows.map((arrow) => {
    const [from, to] = [height.get(arrow.from) + 3, height.get(arrow.to) - 3];
    const left = gutter - 14 - arrow.lane * LANE;
    const kind = arrow.isLoad ? "load" : "branch";
    const path = make("path", kind, { d: `M ${gutter} ${from} H ${left} V ${to} H ${gutter - 5}` });
    make("polygon", kind, { points: `${gutter - 6},${to - 4} ${gutter},${to} ${gutter - 6},${to + 4}` });
    return { ...arrow, path };
  });
}

/* What stands in the place of fields where no word is chosen. */
function showNoFields() {
  part("fields").textContent = "The fields of a word stand here: point at it, or go to it by Tab and the arrow keys.";
}

/* Shows words with their places, islands, pool and branches. */
function showWords(text, given) {
  const report = reportOf(text);
  const all = rowsOf({ ...report, words: report.words.slice(0, MOST_ROWS) }, given);
  const body = part("rows").tBodies[0];
  body.replaceChildren();
  showNoFields();
  for (const word of all) {
    for (const heading of headingsAt(report, word.place)) {
      const row = element("tr", "", `heading ${word.region}`);
      const cell = element("td", heading);
      cell.colSpan = 4;
      row.append(cell);
      body.append(row);
    }
    const row = rowOf(word);
    row.addEventListener("mouseenter", () => showFields(word));
    row.addEventListener("focus", () => showFields(word));
    body.append(row);
  }
  if (report.words.length > MOST_ROWS) body.append(element("tr", `${report.words.length - MOST_ROWS} words more: the output has them`));
  const first = body.querySelector("tr[data-place]");
  if (first) first.tabIndex = 0;
  drawArrows(arrowsOf(all));
}

/* Shows one view, and hides the others. */
function choose(view) {
  for (const tab of document.querySelectorAll("[role=tab]")) {
    const name = tab.getAttribute("aria-controls");
    tab.setAttribute("aria-selected", String(name === view));
    tab.tabIndex = name === view ? 0 : -1;
    part(name).hidden = name !== view;
  }
  state.shown = view;
  if (view === "words") drawArrows(state.arrows);
}

/* Shows which views there are. */
function offer(views) {
  for (const tab of document.querySelectorAll("[role=tab]")) tab.hidden = !views.includes(tab.getAttribute("aria-controls"));
  choose(views.includes(state.shown) ? state.shown : views[0]);
}

/* Runs what is asked for, and shows what comes of it. */
function refresh() {
  const command = part("command").value;
  const text = part("text").value;
  const given = command === "audit" || command === "dis" ? wordsGiven(text) : text;
  const force = command === "asm" && part("force").checked;
  const answer = state.engine.run(command, force, given);
  part("force").disabled = command !== "asm";
  showFault(answer, text);
  part("report").textContent = answer.text;
  const views = viewsOf(command);
  if (views.includes("listing")) {
    for (const view of ["list", "roles"]) {
      const other = state.engine.run(view, false, given);
      part(view === "list" ? "listing" : "roles").textContent = other.text;
    }
  }
  offer(views);
  if (views.includes("words")) showWords(answer.status === 0 ? wordsShown(command, given, answer.text) : "", command === "asm" ? text : "");
  document.body.dataset.status = String(answer.status);
}

/* Refreshes at once, or for a long text after a pause. */
function changed() {
  showNumbers(null);
  clearTimeout(state.timer);
  if (part("text").value.length < LONG_TEXT) refresh();
  else state.timer = setTimeout(refresh, PAUSE);
}

/* Takes an example, with its command. */
function take(name) {
  const example = state.examples[name];
  if (!example) return;
  part("example").value = name;
  part("command").value = example.command;
  part("text").value = example.text;
  part("text").scrollTop = 0;
  refresh();
}

/* Moves from row to row, and from tab to tab, by the arrow keys. */
function moveBy(event, all) {
  const step = { ArrowDown: 1, ArrowRight: 1, ArrowUp: -1, ArrowLeft: -1 }[event.key];
  const at = all.indexOf(document.activeElement);
  if (!step || at < 0) return null;
  event.preventDefault();
  const next = all[Math.min(all.length - 1, Math.max(0, at + step))];
  next.focus();
  return next;
}

/* Begins: the module and the examples stand in the page. */
function begin() {
  state.engine = new Engine(bytesOf(embedded("module")));
  state.examples = JSON.parse(embedded("examples"));
  for (const name of Object.keys(state.examples)) part("example").append(element("option", name));
  part("example").addEventListener("change", () => take(part("example").value));
  part("command").addEventListener("change", refresh);
  part("force").addEventListener("change", refresh);
  part("text").addEventListener("input", changed);
  part("text").addEventListener("scroll", () => { part("numbers").scrollTop = part("text").scrollTop; });
  part("rows").addEventListener("keydown", (event) => moveBy(event, [...document.querySelectorAll("tr[data-place]")]));
  document.querySelector("[role=tablist]").addEventListener("keydown", (event) => {
    const tab = moveBy(event, [...document.querySelectorAll("[role=tab]:not([hidden])")]);
    if (tab) choose(tab.getAttribute("aria-controls"));
  });
  for (const tab of document.querySelectorAll("[role=tab]")) {
    tab.addEventListener("click", () => choose(tab.getAttribute("aria-controls")));
  }
  window.addEventListener("resize", () => { if (state.shown === "words") drawArrows(state.arrows); });
  take("islands");
  document.body.dataset.first = String(performance.now());
}

begin();

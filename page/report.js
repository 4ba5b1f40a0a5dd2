"use strict";
/* What reports, refusals and texts of words say. docs/FORMAT.md has their lines. */

/* The fields that are distances in words, and how many bits each has. */
const DISTANCES = { imm26: 26, imm19: 19, imm14: 14 };

/* A report as records; its lines stand in the order of places. */
function reportOf(text) {
  const report = { items: [], labels: [], islands: [], pool: null, words: [], marks: [] };
  for (const line of text.split("\n")) {
    const [name, ...rest] = line.split(" ");
    if (name === "item") report.items.push(Number(rest[1]));
    else if (name === "label") report.labels.push({ name: rest[0], place: Number(rest[1]) });
    else if (name === "island") report.islands.push({ begin: Number(rest[0]), end: Number(rest[1]) });
    else if (name === "pool") report.pool = Number(rest[0]);
    else if (name === "word") report.words.push({ place: Number(rest[0]), digits: rest[1] });
    else if (name === "data") report.islands.push({ begin: Number(rest[0]), end: Number(rest[1]), isData: true });
    else if (line) report.marks.push({ text: line, place: Number(rest[0]) });
  }
  return report;
}

/* The row of a word and its fields, from its line in what `dis` writes. */
function formOf(line) {
  const [row, ...rest] = line.split(" ");
  if (row === "Data") return { row, fields: [] };
  return { row, fields: rest.map((field) => field.split("=")) };
}

/* Where a word at a place leads: the place, and whether it loads from there. */
function targetOf(form, place) {
  for (const [name, value] of form.fields) {
    const bits = DISTANCES[name];
    if (bits) {
      const count = Number(value);
      const words = count >= 2 ** (bits - 1) ? count - 2 ** bits : count;
      return { place: place + 4 * words, isLoad: form.row === "LdLiteral" };
    }
  }
  return null;
}

/* Where a place stands: in an island, in the pool, or in the items. */
function regionOf(report, place) {
  if (report.islands.some(({ begin, end }) => begin <= place && place < end)) return "island";
  return report.pool !== null && place >= report.pool ? "pool" : "items";
}

/* The numbers of the lines with items, from 0: the first is that of item 0. */
function itemLines(text) {
  const lines = [];
  text.split("\n").forEach((line, number) => {
    if (line !== "" && !/^(;|const |frame |restore |flag )/.test(line)) lines.push(number);
  });
  return lines;
}

/* The number of the line of which a refusal speaks, from 0, or null where it speaks of none. */
function lineOfFault(fault, text) {
  const line = /^line (\d+):/.exec(fault);
  if (line) return Number(line[1]) - 1;
  const item = /^item (\d+):/.exec(fault);
  if (item) return itemLines(text)[Number(item[1])] ?? null;
  const label = /^label (L\d+): (.*)/.exec(fault);
  if (label) return lineOfLabel(label[1], label[2], text);
  const place = /^place (\d+):/.exec(fault);
  return place ? lineStarting(`word ${place[1]} `, text) : null;
}

/* The first line that begins so. */
function lineStarting(front, text) {
  const found = text.split("\n").findIndex((line) => line.startsWith(front));
  return found < 0 ? null : found;
}

/* The line at which a label is refused: the one that binds it again, or the first that uses it. */
function lineOfLabel(label, why, text) {
  const all = text.split("\n").map((line, number) => ({ line, number }));
  const has = all.filter(({ line }) => !line.startsWith(";") && mentions(line, label));
  const binds = has.filter(({ line }) => line.startsWith("bind "));
  const uses = has.filter(({ line }) => !line.startsWith("bind "));
  const found = why.startsWith("bound twice") ? binds[1] : uses[0];
  return found ? found.number : null;
}

/* Whether a line names a label, also as a mode does. */
function mentions(line, label) {
  return line.split(/[ (),]/).includes(label) || line.includes(`Label(Mach,${label.slice(1)})`);
}

/* What is given to `audit` and `dis`: words that stand alone, as eight digits each, get places. */
function wordsGiven(text) {
  const lines = text.split("\n").map((line) => line.trim()).filter((line) => line !== "");
  if (lines.length === 0 || !lines.every((line) => /^(0x)?[0-9a-fA-F]{8}$/.test(line))) return text;
  return lines.map((line, index) => `word ${4 * index} ${line.slice(-8).toLowerCase()}\n`).join("");
}

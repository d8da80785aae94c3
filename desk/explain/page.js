// What a page of ./explain does: a call or its line is marked in both places, and the log is searched and filtered.
"use strict";
const [log, picture, search, process, refused, count] =
  ["log", "picture", "search", "process", "refused", "count"].map(name => document.getElementById(name));
const rows = [...log.children];
const rowOf = new Map(rows.map(row => [row.dataset.line, row]));
const words = new Map(rows.map(row => [row, row.textContent.toLowerCase()]));
const stripsOf = new Map();  // for each line the strips that show it
for (const strip of picture.querySelectorAll(".strip"))
  for (const line of linesOf(strip)) stripsOf.set(line, [...stripsOf.get(line) || [], strip]);
const dimming = document.head.appendChild(document.createElement("style"));
let marked = null;  // the row that is marked

function linesOf(strip) { return strip.dataset.lines.split(" "); }

// The left side and the width of a strip's columns.
function columnsOf(strip) {
  const calls = strip.querySelector(".calls");
  const number = part => Number(calls.getAttribute(part));
  return { x: number("x"), y: number("y"), width: number("width") / linesOf(strip).length, height: number("height") };
}

function frame(strip, line) {
  const column = columnsOf(strip);
  const rect = document.createElementNS("http://www.w3.org/2000/svg", "rect");
  column.x += linesOf(strip).indexOf(line) * column.width;
  for (const part in column) rect.setAttribute(part, column[part]);
  rect.setAttribute("class", "marked");
  strip.append(rect);
  return rect;
}

// The strip with the row of the first process that a line is about, or the first strip with the line.
function bestStrip(row, strips) {
  const [first] = row.dataset.who.split(" ");
  return strips.find(strip => strip.querySelector(`[data-process="${first}"]`)) || strips[0];
}

function mark(row) {
  if (!row) return;
  for (const old of document.querySelectorAll("rect.marked")) old.remove();
  const before = marked;
  marked = row;
  if (before) { before.classList.remove("marked"); before.setAttribute("aria-selected", "false"); show(before); }
  row.classList.add("marked");
  row.setAttribute("aria-selected", "true");
  log.setAttribute("aria-activedescendant", row.id);
  show(row);
  row.scrollIntoView({ block: "nearest" });
  const strips = stripsOf.get(row.dataset.line) || [];
  for (const strip of strips) frame(strip, row.dataset.line);
  if (strips.length) {
    const best = bestStrip(row, strips);
    best.closest(".sheet").scrollIntoView({ block: "nearest" });
    best.querySelector("rect.marked").scrollIntoView({ block: "nearest", inline: "nearest" });
  }
}

function isWanted(row) {
  return words.get(row).includes(search.value.toLowerCase())
    && (!process.value || row.dataset.who.split(" ").includes(process.value))
    && (!refused.checked || row.classList.contains("refused"));
}

// A row is shown if it is wanted or marked.
function show(row) { row.hidden = row !== marked && !isWanted(row); }

function filter() {
  rows.forEach(show);
  const shown = rows.filter(row => !row.hidden).length;
  count.textContent = shown === rows.length ? `${shown} lines` : `${shown} of ${rows.length} lines`;
  dimming.textContent = process.value ? `#picture [data-process]:not([data-process~="${process.value}"]) { opacity: .25 }` : "";
  if (marked) marked.scrollIntoView({ block: "nearest" });
}

// Marks the next row in a direction that is shown and fits; the first or last where none is marked.
function step(direction, fits = () => true) {
  const ahead = direction > 0 ? rows : [...rows].reverse();
  mark(ahead.slice(ahead.indexOf(marked) + 1).find(row => !row.hidden && fits(row)));
}

const isCall = row => row.classList.contains("call");
const keys = {
  ArrowDown: () => step(1), j: () => step(1), ArrowUp: () => step(-1), k: () => step(-1),
  ArrowRight: () => step(1, isCall), ArrowLeft: () => step(-1, isCall),
  Home: () => mark(rows.find(row => !row.hidden)), End: () => mark(rows.findLast(row => !row.hidden)),
  "/": () => search.focus(),
};

document.addEventListener("keydown", event => {
  if (event.ctrlKey || event.altKey || event.metaKey) return;
  if (event.key === "Escape") {
    search.value = process.value = ""; refused.checked = false; filter(); log.focus();
  } else if (event.target === search && (event.key === "Enter" || event.key === "ArrowDown")) {
    log.focus(); mark(rows.find(isWanted));
  } else if (!event.target.closest("input, select") && Object.hasOwn(keys, event.key)) {
    keys[event.key]();
  } else return;
  event.preventDefault();
});

log.addEventListener("click", event => { const row = event.target.closest("li"); if (row) mark(row); });
picture.addEventListener("click", event => {
  const strip = event.target.closest(".strip");
  if (!strip) return;
  const at = new DOMPoint(event.clientX, event.clientY).matrixTransform(strip.ownerSVGElement.getScreenCTM().inverse());
  const column = columnsOf(strip);
  const line = linesOf(strip)[Math.floor((at.x - column.x) / column.width)];
  if (at.x >= column.x && line) mark(rowOf.get(line));
});
for (const tool of [search, process, refused]) tool.addEventListener("input", filter);
document.querySelector("form").addEventListener("submit", event => event.preventDefault());
filter();

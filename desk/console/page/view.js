// The station as it is at one moment, drawn: processes and their queues, buffers, devices, semaphores, the table's words.

import { button, grid, make } from "./dom.js";
import { STANDINGS } from "./given.js";
import { FOR_EVENT, FOR_SEMAPHORE, KEPT_DEVICE, recordsOf, STOPPED } from "./table.js";
import { hex, spelled, textOf, waitTold } from "./telling.js";
import { faultTold, wordNamed } from "./why.js";

const REASONS = { 1: "woken by an event", 2: "woken by its delay", 3: "woken by an interrupt", 5: "woken by a raise" };
const ROW_WORDS = 8;

function stateTold(process, station) {
  if (process.number === station.current) return "runs";
  if (process.state >= FOR_EVENT && process.state <= FOR_SEMAPHORE) return "waits";
  return process.state === STOPPED ? "stopped" : "ready";
}

// A buffer in a queue: its number, with all that is known of it behind it.
function chip(buffer, station) {
  if (!buffer) return make("span", { class: "chip" }, "?");
  const standing = STANDINGS[buffer.standing] ?? buffer.standing;
  const between = `${station.name(buffer.owner)} to ${station.name(buffer.receiver)}`;
  const about = `buffer ${buffer.number}, ${between}, ${standing}: ${textOf(buffer.words) ?? spelled(buffer.words)}`;
  return make("span", { class: `chip ${standing}`, role: "img", title: about, "aria-label": about }, `${buffer.number}`);
}

function processRow(process, station, rings, say) {
  const ring = rings.some(one => one.includes(process.number)), name = process.name.startsWith("#") ? process.number : process.name;
  const does = (word, off) => button(word, () => say(`${word.toLowerCase()} ${name}`), { disabled: off, "aria-label": `${word} ${process.name}` });
  const stopped = process.state === STOPPED;
  return { look: `${stateTold(process, station)}${ring ? " ring" : ""}`, cells: [
    process.name, `${process.priority}`, stateTold(process, station) + (ring ? ", in a ring" : ""),
    waitTold(process, station) || REASONS[process.reason] || "", process.queue.map(b => chip(station.buffers[b - 1], station)),
    make("span", { class: "does" }, does("Start", !stopped), does("Stop", stopped), does("Clean", false)),
  ] };
}

export function processesView(station, rings, say) {
  const rows = station.processes.map(process => processRow(process, station, rings, say));
  return grid("Processes", ["Name", "Priority", "State", "Waits for, or why it woke", "Event queue", "Do"], rows, "No process is laid out yet.");
}

export function runningView(station) {
  if (!station.running.length) return make("p", { class: "none" }, "Nobody runs.");
  return make("ol", { class: "queue", "aria-label": "The running queue, the first runs" },
    ...station.running.map((p, i) => make("li", { class: i ? "ready" : "runs" }, `${station.name(p)} (${station.processes[p - 1].priority})`)));
}

export function buffersView(station) {
  const rows = station.buffers.map(buffer => ({ look: STANDINGS[buffer.standing], cells: [
    `${buffer.number}`, station.name(buffer.owner), buffer.receiver ? station.name(buffer.receiver) : "", STANDINGS[buffer.standing] ?? `${buffer.standing}`,
    buffer.standing ? `${buffer.age}` : "", buffer.standing ? textOf(buffer.words) ?? spelled(buffer.words) : "",
  ] }));
  return grid("Buffers", ["No.", "From", "To", "Standing", "Age", "Words"], rows, "There are no buffers.");
}

export function devicesView(station) {
  const told = device => device.word === KEPT_DEVICE ? "an interrupt is kept" : `${station.name(device.word)} waits`;
  const rows = station.devices.map(device => ({ look: "", cells: [`${device.number}`, told(device)] }));
  return grid("Devices", ["No.", "Who waits, or what is kept"], rows, "No device is waited for.");
}

export function semaphoresView(station) {
  const rows = station.semaphores.map(one => ({ look: "", cells: [`${one.number}`, `${one.counter}`, one.waiters.map(station.name).join(", ") || "nobody"] }));
  return grid("Semaphores", ["No.", "Counter", "Waiting, the longest first"], rows, "There are no semaphores.");
}

// The table's words; a click on one adds one to it, as a stray write would. The one that a fault names is lit up, below what is told of it.
export function tableView(words, station, fault, spoil) {
  const rows = recordsOf(station).flatMap(({ place, length, label }) => {
    const width = length > 10 ? ROW_WORDS : length;
    return Array.from({ length: Math.ceil(length / width) }, (_, i) => ({ begin: place + i * width, width, label: i ? "" : label }));
  }).filter(({ begin, width, label }) => label !== "" || begin >= 72 || words.slice(begin, begin + width).some(Boolean));
  const digits = place => hex(words[place] ?? 0);
  const isNamed = place => fault.clause > 0 && place === fault.place;
  const word = place => button(digits(place), () => spoil(place), { class: isNamed(place) ? "word named" : "word", title: wordNamed(place, words),
    "aria-label": `word ${place}, ${wordNamed(place, words)}, ${digits(place)}${isNamed(place) ? ", named by why" : ""}: add one` });
  const told = make("p", { class: fault.clause ? "why unsound" : "why" }, faultTold(fault, words).join(" "));
  return make("div", { class: "words" }, told, ...rows.map(({ begin, width, label }) =>
    make("div", {}, make("b", {}, `${begin}`), ...Array.from({ length: width }, (_, i) => word(begin + i)), make("i", {}, label))));
}

// Words to the lines of a log, and lines to words (docs/CONSOLE.md, 4). A line is bytes, so that any log comes back as it was.

import { Mistake, nearest } from "./language.js";
import { lettersOf, plainName, trimmed } from "./table.js";
import { hex, textOf } from "./telling.js";

const CALLS = { send: 1, "wait answer": 2, "wait event": 3, answer: 4, "wait interrupt": 5, start: 6, stop: 7, clean: 8, tick: 9,
  interrupt: 10, list: 11, lower: 12, raise: 13 };
const OF_PROCESS = ["send", "start", "stop", "clean", "list"];
const NO_WORDS = [0, 0, 0, 0];
export const SETTINGS = ["edition", "semaphore"];
export const GIVES_LINES = [...Object.keys(CALLS), "process", "call", "line", "answered"];
// Which parts calls 01 to 0B leave unused; they have to be zero.
const USES_B = [5], USES_WORDS = [1, 4], USES_NO_A = [9];

const bytesOf = text => [...text].map(letter => letter.charCodeAt(0));
export const rawText = bytes => Array.from(bytes, byte => String.fromCharCode(byte)).join(""); // a byte a letter
const rawCall = (number, a = 0, b = 0, words = NO_WORDS) => bytesOf(hex(number, 2) + [a, b, ...words].map(word => hex(word)).join(""));
export const isMarked = bytes => bytes[0] === 0x3E && bytes[1] === 0x20;

// The call of a line of 26 good digits, or null.
function callOf(bytes) {
  const said = bytes.length === 26 ? rawText(bytes) : "";
  if (!/^[0-9A-F]{26}$/.test(said)) return null;
  const [a, b, ...words] = [2, 6, 10, 14, 18, 22].map(i => parseInt(said.slice(i, i + 4), 16));
  return { number: parseInt(said.slice(0, 2), 16), a, b, words };
}

function isProper(call, laid) {
  const any = call.words.some(Boolean);
  if (call.number === 0) return !laid && call.words[3] === 0;
  if (call.number > 11) return true;
  return (!USES_NO_A.includes(call.number) || !call.a) && (USES_B.includes(call.number) || !call.b) && (USES_WORDS.includes(call.number) || !any);
}

const same = (one, two) => one.length === two.length && one.every((byte, i) => byte === two[i]);
const decoded = bytes => new TextDecoder().decode(new Uint8Array(bytes));

// The layout so far, and whether it is done.
export class Names {
  constructor(from = { entries: [], laid: false }) { this.entries = [...from.entries]; this.laid = from.laid; }

  // One more line; gives its call, a layout line's too, or null where it is none.
  take(bytes, place = null) {
    const call = callOf(bytes);
    if (!call || !isProper(call, this.laid)) return null;
    if (call.number) this.laid = true;
    else this.entries.push({ priority: call.a, buffers: call.b, name: call.words.slice(0, 3), place });
    return call;
  }

  names() { return this.entries.map(entry => trimmed(lettersOf(entry.name))); }

  said(number) {
    const entry = this.laid ? this.entries[number - 1] : undefined, word = entry && wordOf(entry.name);
    return word && this.names().filter(name => same(name, bytesOf(word))).length === 1 ? word : `${number}`;
  }

  numberOf(reference) {
    if (reference.bytes === null) return reference.number;
    const names = this.names(), asked = decoded(reference.bytes), all = fits => names.flatMap((name, i) => fits(name) ? [i + 1] : []);
    let found = all(name => same(name, reference.bytes));
    if (!found.length) found = all(name => decoded(name).toLowerCase() === asked.toLowerCase());
    if (found.length === 1) return found[0];
    if (found.length) throw new Mistake(reference.column, `processes ${found.join(" and ")} are both called so; say which by its number.`);
    const near = nearest(asked, names.map(decoded)), there = names.map(decoded).join(", ");
    const rest = near ? `the nearest name is ${near}` : names.length ? `there are ${there}` : "none is laid out yet";
    throw new Mistake(reference.column, `there is no process '${asked}'; ${rest}.`);
  }
}

// The lines of a statement that gives any; throws a Mistake where a process isn't there.
export function linesOf({ name, values }, names) {
  const [first, second] = values;
  if (name === "process") {
    const [bytes, priority, count] = values, padded = [...bytes, 0, 0, 0, 0, 0, 0];
    return [rawCall(0, priority, count || 0, [0, 2, 4].map(i => padded[i] * 256 + padded[i + 1]).concat(0))];
  }
  if (name === "tick") return new Array(first || 1).fill(rawCall(9));
  if (name === "call") {
    const [a, b, ...words] = second || [0, 0, ...NO_WORDS];
    return [rawCall(first, a, b, words)];
  }
  if (name === "line") return [first];
  if (name === "answered") return [[0x3E, 0x20, ...first]];
  const a = OF_PROCESS.includes(name) ? names.numberOf(first) : first || 0;
  return [name === "send" || name === "answer" ? rawCall(CALLS[name], a, 0, second || NO_WORDS) : rawCall(CALLS[name], a, second || 0)];
}

// ---- lines to words

function quoted(bytes) {
  const letter = byte => byte === 0x22 ? '\\"' : byte === 0x5C ? "\\\\" : byte >= 0x20 && byte <= 0x7E ? String.fromCharCode(byte) : `\\x${hex(byte, 2)}`;
  return `"${bytes.map(letter).join("")}"`;
}

// A name where it can stand as a word of the language and be taken for nothing else, or null.
function wordOf(words) {
  const name = plainName(words);
  return name && !/^[0-9]+$/.test(name) && !/["#:]/.test(name) ? name : null;
}

function messageSaid(words) {
  if (!words.some(Boolean)) return "";
  return textOf(words) === null ? ` ${words.map(word => hex(word)).join(" ")}` : ` ${quoted(trimmed(lettersOf(words)))}`;
}

function callSaid(call, process) {
  const delay = ticks => ticks ? ` ${ticks}` : "";
  switch (call.number) {
    case 1: return `send ${process}${messageSaid(call.words)}`;
    case 2: return `wait answer ${call.a}`;
    case 3: return `wait event${delay(call.a)}`;
    case 4: return `answer ${call.a}${messageSaid(call.words)}`;
    case 5: return `wait interrupt ${call.a}${delay(call.b)}`;
    case 9: return "tick";
    case 10: return `interrupt ${call.a}`;
    case 12: return `lower ${call.a}`;
    case 13: return `raise ${call.a}`;
    default: return `${{ 6: "start", 7: "stop", 8: "clean", 11: "list" }[call.number]} ${process}`;
  }
}

// One more line of a log in words.
export function lineSaid(bytes, names) {
  if (isMarked(bytes) && bytes.every(byte => byte >= 0x20 && byte <= 0x7E)) return rawText(bytes);
  const shape = callOf(bytes), call = names.take(bytes);
  if (shape && shape.number === 0 && shape.words[3] === 0) {
    const name = wordOf(shape.words.slice(0, 3)) || quoted(trimmed(lettersOf(shape.words.slice(0, 3))));
    return `process ${name} priority ${shape.a} buffers ${shape.b}`;
  }
  const unsaid = call && call.number > 11 && (call.b || call.words.some(Boolean));
  if (call && call.number && call.number < 14 && !unsaid) return callSaid(call, names.said(call.a));
  return shape ? `call ${rawText(bytes).replace(/^(..)(....)(....)(....)(....)(....)(....)$/, "$1 $2 $3 $4 $5 $6 $7")}` : `line ${quoted(bytes)}`;
}

// A log's bytes in words, a line each.
export function logSaid(bytes) {
  const names = new Names(), said = [];
  let begin = 0;
  for (let end; (end = bytes.indexOf(10, begin)) >= 0; begin = end + 1) said.push(lineSaid([...bytes.slice(begin, end)], names));
  return begin < bytes.length ? [...said, lineSaid([...bytes.slice(begin)], names), "torn"] : said;
}

// Whether some bytes are a log: one of the first lines is 26 digits, which no line of words is.
export const isLog = bytes => rawText(bytes.slice(0, 4096)).split("\n").some(line => /^[0-9A-F]{26}$/.test(line));

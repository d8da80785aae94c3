// Why a table isn't sound, in a person's words: the monitor's clause, record and place, the word's name and the specification's
// sentence. The names and sentences are the desk's (desk/table), put in from Python.

import { BROKEN, CLAUSES, WORD_NAMES } from "./given.js";
import { hex } from "./telling.js";

const HEADER = 72, FIRST_DEVICE = 8, FOR_SEMAPHORE = 5, STATE = 4;
const SIZES = [["process", 0, 16, 32], ["buffer", 1, 10, 128], ["semaphore", 5, 4, 16]]; // each with its header word, its words, and the most

// The sort, number and word of the record that a place stands in; null beyond them, or where their sizes can't be.
function recordAt(place, words) {
  if (!words[0] || SIZES.some(([, at, , most]) => words[at] > most)) return null;
  let left = place - HEADER;
  for (const [sort, at, size] of SIZES) {
    if (left < words[at] * size) return { sort, number: Math.floor(left / size) + 1, word: left % size };
    left -= words[at] * size;
  }
  return null;
}

// What the word at a place is called.
export function wordNamed(place, words) {
  if (place < FIRST_DEVICE) return WORD_NAMES.header[place];
  if (place < HEADER) return `device ${place - FIRST_DEVICE}'s word`;
  const found = recordAt(place, words);
  if (!found) return "a word beyond the table";
  const { sort, number, word } = found, waits = sort === "process" && word < 2 && words[place - word + STATE] === FOR_SEMAPHORE;
  return WORD_NAMES[waits ? "waiter" : sort][word].replace("{}", `${sort} ${number}`);
}

// A fault { clause, record, place } as sentences: what is wrong, the word that is named, and the sentence that it breaks.
export function faultTold({ clause, place }, words) {
  if (!clause) return ["The table is sound."];
  const named = place < words.length ? `Word ${place}, ${wordNamed(place, words)}, is ${hex(words[place])}.` : `Word ${place} is missing.`;
  const [bullet, sentence] = BROKEN[clause];
  return [`The table isn't sound: ${CLAUSES[clause]}.`, named, `Clause ${clause}, of "${bullet}" in docs/MONITOR.md, 3: "${sentence}"`];
}

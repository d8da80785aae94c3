// Why a layout is refused, in the sentences of desk/log/layout.py and desk/console/session.py.

import { hex } from "./telling.js";
import { lettersOf, plainName, trimmed } from "./table.js";

const MOST_PROCESSES = 32, MOST_BUFFERS = 128, MOST_SEMAPHORES = 16, MOST_COUNTER = 32767, MOST_REASONS = 10;

function nameFault(words) {
  const bytes = lettersOf(words);
  if (!bytes[0]) return bytes.some(Boolean) ? "its name begins with a zero byte" : "its name is empty";
  if (trimmed(bytes).includes(0)) return "its name has a zero byte inside";
  return bytes[5] ? "its name has six letters where five are the most" : null;
}

function entryFaults(entry, twin) {
  const faults = entry.priority >= 1 && entry.priority <= 255 ? [] : [`its priority is ${entry.priority}, and priorities go from 1 to 255`];
  if (nameFault(entry.name)) faults.push(nameFault(entry.name));
  if (twin) faults.push(`process ${twin} has the same name`);
  return faults;
}

function reasons(entries) {
  if (!entries.length) return ["There is no layout line."];
  const buffers = entries.reduce((sum, entry) => sum + entry.buffers, 0), found = [];
  if (entries.length > MOST_PROCESSES) found.push(`There are ${entries.length} processes, and 32 are the most.`);
  if (buffers > MOST_BUFFERS) found.push(`The processes have ${buffers} buffers together, and 128 are the most.`);
  const bearer = {};
  entries.forEach((entry, i) => {
    const name = plainName(entry.name), title = `Process ${i + 1}${name ? `, ${name}` : ""} (line ${entry.place})`;
    found.push(...entryFaults(entry, bearer[entry.name]).map(fault => `${title}: ${fault}.`));
    bearer[entry.name] ??= i + 1;
  });
  return found;
}

function settingFaults(edition, counters) {
  const faults = edition === 0 || edition === 1 ? [] : [`The edition is ${edition}, and there are 0 and 1.`];
  if (counters.length > MOST_SEMAPHORES) faults.push(`There are ${counters.length} semaphores, and ${MOST_SEMAPHORES} are the most.`);
  const high = counters.flatMap((counter, i) => counter > MOST_COUNTER ? [`Semaphore ${i + 1} begins with ${counter}, and ${MOST_COUNTER} is the most.`] : []);
  return [...faults, ...high];
}

// A refused layout as sentences.
export function refusalTold({ names, edition, counters }) {
  const found = reasons(names.entries), more = found.length > MOST_REASONS ? [`And ${found.length - MOST_REASONS} more.`] : [];
  return ["The layout is refused with 11 (0B in the replay); no line after it is read.", ...found.slice(0, MOST_REASONS), ...more,
    ...settingFaults(edition, counters)].join(" ");
}

// A layout line as a sentence.
export function entryTold(entries) {
  const { priority, buffers, name } = entries.at(-1), first = entries.slice(0, -1).reduce((sum, entry) => sum + entry.buffers, 1);
  const own = !buffers ? "no buffers" : buffers === 1 ? `buffer ${first}` : `buffers ${first} to ${first + buffers - 1}`;
  const called = plainName(name) || `its name, in hexadecimal, ${name.map(word => hex(word)).join("")}`;
  return `Process ${entries.length}: ${called}, priority ${priority}, ${own}.`;
}

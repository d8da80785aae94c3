// A call and its answer in a person's words: the sentences of ./explain (desk/log/words.py), from the station before and after.
// The tests hold them to those. 'known' is what the table doesn't have: who was cleaned, and since which line a device is kept.

import { ANSWERED, DEVICES, FOR_ANSWER, FOR_EVENT, FOR_INTERRUPT, FOR_SEMAPHORE, FREE, HELD, lettersOf, ORPHANED, QUEUED, STOPPED, trimmed } from "./table.js";
import { MEANINGS, STANDINGS, STATES } from "./given.js";

const [SEND, WAIT_ANSWER, WAIT_EVENT, SEND_ANSWER, WAIT_INTERRUPT, START, STOP, CLEAN, TICK, INTERRUPT, LIST, LOWER, RAISE] =
  [1, 2, 3, 4, 5, 6, 7, 8, 9, 10, 11, 12, 13];
const MOST_OPEN = 6, OLDEST = 65535;

export const hex = (value, digits = 4) => value.toString(16).toUpperCase().padStart(digits, "0");
export const plural = (count, thing) => `${count || "no"} ${thing}${count === 1 ? "" : "s"}`;

// The text that four words are, or null.
export function textOf(words) {
  const bytes = trimmed(lettersOf(words));
  return bytes.length && bytes.every(byte => byte >= 0x20 && byte <= 0x7E) ? String.fromCharCode(...bytes) : null;
}

export function spelled(words) {
  const text = textOf(words), digits = words.map(word => hex(word)).join(" ");
  return text === null ? digits : `${digits} "${text}"`;
}

const limit = delay => delay ? `, ${plural(delay, "tick")} at most` : "";

const ASKED = {
  [SEND]: (call, name) => `Send ${spelled(call.words)} to ${name}`,
  [WAIT_ANSWER]: call => `Wait for the answer to buffer ${call.a}`,
  [WAIT_EVENT]: call => `Wait for an event${limit(call.a)}`,
  [SEND_ANSWER]: call => `Answer buffer ${call.a} with ${spelled(call.words)}`,
  [WAIT_INTERRUPT]: call => `Wait for device ${call.a}${limit(call.b)}`,
  [START]: (call, name) => `Start ${name}`,
  [STOP]: (call, name) => `Stop ${name}`,
  [CLEAN]: (call, name) => `Clean ${name}`,
  [TICK]: () => "Tick",
  [INTERRUPT]: call => `Interrupt from device ${call.a}`,
  [LIST]: (call, name) => `List the buffers of ${name}`,
  [LOWER]: call => `Lower semaphore ${call.a}`,
  [RAISE]: call => `Raise semaphore ${call.a}`,
};
const asked = (call, station) => ASKED[call.number] ? ASKED[call.number](call, station.name(call.a)) : `Call ${hex(call.number, 2)}`;

const names = (station, woken) => woken.map(station.name).join(" and ");
const wakes = (station, woken) => `${names(station, woken)} ${woken.length === 1 ? "wakes" : "wake"}`;
const withWakes = (result, station, woken) => woken.length ? `${result}, ${wakes(station, woken)}` : result;

function waitNamed(process) {
  return { [FOR_EVENT]: "an event", [FOR_ANSWER]: `the answer to buffer ${process.buffer}`, [FOR_INTERRUPT]: `device ${process.device}`,
    [FOR_SEMAPHORE]: `semaphore ${process.semaphore}` }[process.state];
}

// What a process waits for, and how long at most; nothing where it doesn't wait.
export function waitTold(process, station) {
  if (process.state < FOR_EVENT || process.state > FOR_SEMAPHORE) return "";
  if (process.state !== FOR_ANSWER) return waitNamed(process) + limit(process.delay);
  const buffer = station.buffers[process.buffer - 1];
  if (!buffer) return waitNamed(process);
  const where = { [HELD]: "held by", [QUEUED]: "queued at" }[buffer.standing];
  return where ? `${waitNamed(process)}, ${where} ${station.name(buffer.receiver)}` : `${waitNamed(process)}, which is ${STANDINGS[buffer.standing]}`;
}

// The buffers whose standing a call changed, and those that it woke, in the order of their waking.
const movedBetween = (before, after) => after.buffers.filter((buffer, i) => before.buffers[i].standing !== buffer.standing);

function wokenBy(call, answer, before, after) {
  if (call.number === TICK) return before.processes.filter(process => process.delay === 1).map(process => process.number);
  if (call.number === INTERRUPT) return answer.kind ? [answer.kind] : [];
  if (call.number === RAISE) return before.semaphores[call.a - 1].waiters.slice(0, 1);
  const found = [];
  for (const buffer of movedBetween(before, after)) {
    const owner = before.processes[buffer.owner - 1], receiver = before.processes[buffer.receiver - 1];
    if (buffer.standing === QUEUED && receiver.state === FOR_EVENT) found.push(buffer.receiver);
    if (buffer.standing === ANSWERED && (owner.state === FOR_EVENT || owner.state === FOR_ANSWER && owner.buffer === buffer.number)) found.push(buffer.owner);
  }
  return [...new Set(found)];
}

function ranOut(before, after, woken) {
  if (!woken.length) return "nobody wakes";
  const waits = woken.map(p => `${before.name(p)}'s wait for ${waitNamed(before.processes[p - 1])}`);
  return `${waits.join(" and ")}${["", "", " both"][waits.length] ?? " all"} ran out, ${wakes(after, woken)}`;
}

function sliceGiven(before, after) {
  const [was, is] = [before.current, after.current];
  if (!was || !is || was === is || before.processes[was - 1].priority !== after.processes[is - 1].priority) return "";
  return `, ${after.name(was)} gives the slice to ${after.name(is)}`;
}

function stopped(call, before, after) {
  const left = before.processes[call.a - 1].semaphore;
  return `${after.name(call.a)} is stopped${left ? `, the counter of semaphore ${left} is ${after.semaphores[left - 1].counter}` : ""}`;
}

function cleaned(call, before, after, woken) {
  const ways = [[FREE, "free again"], [ORPHANED, "orphaned"], [ANSWERED, "answered with 8000 hexadecimal"]];
  const was = before.processes[call.a - 1].state === STOPPED;
  const parts = [was ? `${after.name(call.a)} was stopped already` : stopped(call, before, after)];
  for (const [standing, way] of ways) {
    const numbers = movedBetween(before, after).filter(buffer => buffer.standing === standing).map(buffer => buffer.number);
    if (numbers.length) parts.push(`buffer${numbers.length > 1 ? "s" : ""} ${numbers.join(", ")} ${way}`);
  }
  return withWakes(parts.join("; "), after, woken);
}

function fetched(answer, before, after, known) {
  const buffer = before.buffers[answer.buffer - 1];
  if (answer.kind === 1) return `the message ${spelled(answer.words)} from ${after.name(buffer.owner)}; buffer ${answer.buffer} is held now`;
  const cause = known.cleaned[answer.buffer] ? `, because ${after.name(known.cleaned[answer.buffer])} was cleaned` : "";
  return `the answer ${spelled(answer.words)}${cause}; buffer ${answer.buffer} is free again`;
}

function goneBack(call, before, after, woken) {
  const buffer = after.buffers[call.a - 1];
  return buffer.standing === FREE ? "it was orphaned, and is free again" : withWakes(`it goes back to ${after.name(buffer.owner)}`, after, woken);
}

function counted(call, before, after, woken) {
  const waits = call.number === LOWER && after.processes[before.current - 1].state === FOR_SEMAPHORE;
  const result = `its counter is ${after.semaphores[call.a - 1].counter}`;
  return withWakes(waits ? `${result}, ${after.name(before.current)} waits` : result, after, woken);
}

function interrupted(call, after, woken, known, place) {
  if (woken.length) return `${wakes(after, woken)}, in front of its equals`;
  if (after.edition !== 1) return "nobody wakes";
  const since = known.kept[call.a] ?? place;
  return since === place ? "nobody waits for it, and it is kept" : `one is kept already, since line ${since}`;
}

function cameBack(call, answer, before, after, known, place) {
  const woken = wokenBy(call, answer, before, after);
  switch (call.number) {
    case WAIT_ANSWER: case WAIT_EVENT: return answer.kind ? fetched(answer, before, after, known) : `${after.name(before.current)} waits`;
    case WAIT_INTERRUPT: return answer.kind === 3 ? "an interrupt was kept for it" : `${after.name(before.current)} waits`;
    case LOWER: case RAISE: return counted(call, before, after, woken);
    case SEND: return withWakes(`it goes out in buffer ${answer.buffer}`, after, woken);
    case SEND_ANSWER: return goneBack(call, before, after, woken);
    case CLEAN: return cleaned(call, before, after, woken);
    case LIST: return plural(answer.kind, "open buffer");
    case INTERRUPT: return interrupted(call, after, woken, known, place);
    case TICK: return ranOut(before, after, woken) + sliceGiven(before, after);
    case STOP: return stopped(call, before, after);
    default: return `${after.name(call.a)} joins the running queue`;
  }
}

function wrongBuffer(call, station) {
  const count = station.buffers.length, buffer = station.buffers[call.a - 1];
  if (!buffer) return count ? `buffers are 1 to ${count}` : "there are no buffers";
  const standing = `buffer ${call.a} is ${STANDINGS[buffer.standing]}`;
  if (call.number === WAIT_ANSWER) {
    return buffer.owner !== station.current ? `buffer ${call.a} belongs to ${station.name(buffer.owner)}` : `${standing}, so no answer will come`;
  }
  if (buffer.standing === FREE) return standing;
  if (buffer.receiver !== station.current) return `buffer ${call.a} was sent to ${station.name(buffer.receiver)}`;
  return `${standing}, and an answer wants ${STANDINGS[HELD]} or ${STANDINGS[ORPHANED]}`;
}

const DETAILS = {
  3: () => `devices are 0 to ${DEVICES - 1}`,
  4: (call, station) => `processes are 1 to ${station.processes.length}`,
  5: (call, station) => {
    const count = station.processes[station.current - 1].owns;
    return `${station.name(station.current)} has ${plural(count, "buffer")}${count ? ", all in use" : ""}`;
  },
  6: wrongBuffer,
  7: (call, station) => `${station.name(call.a)} ${STATES[station.processes[call.a - 1].state]}`,
  9: (call, station) => `${station.name(station.devices.find(device => device.number === call.a).word)} does`,
  13: () => "calls are 01 to 0D",
  19: (call, station) => station.semaphores.length ? `semaphores are 1 to ${station.semaphores.length}` : "there are none",
};

export const numberTold = number => number > 9 ? `${number} (${hex(number, 2)} in the replay)` : `${number}`;

function refused(number, call, before) {
  const about = DETAILS[number] ? DETAILS[number](call, before) : "";
  return `refused with ${numberTold(number)}, ${MEANINGS[number]}${about ? ` (${about})` : ""}`;
}

function runs(before, after) {
  if (!after.current) return "Nobody runs.";
  return `${after.name(after.current)} runs ${after.current === before.current ? "on" : "now"}.`;
}

const aged = age => plural(age, "tick") + (age === OLDEST ? " or more" : "");

export function conversation(buffer, station) {
  const age = buffer.age ? ` (${aged(buffer.age)})` : "";
  return `${buffer.number} ${station.name(buffer.owner)}>${station.name(buffer.receiver)} ${STANDINGS[buffer.standing]}${age}`;
}

function conversations(station) {
  const count = station.open.length;
  if (!count) return "Nothing open.";
  const shown = station.open.slice(0, MOST_OPEN).map(buffer => conversation(buffer, station)).join(", ");
  return `Open: ${shown}${count > MOST_OPEN ? ` and ${count - MOST_OPEN} more` : ""}.`;
}

function listed([b, owner, receiver, standing, age], station) {
  return `Listed: buffer ${b} of ${station.name(owner)}, sent to ${station.name(receiver)}${age ? ` ${aged(age)} ago` : ""}, ${STANDINGS[standing]}.`;
}

// An answered call as sentences.
export function told(call, answer, before, after, known, place) {
  const result = answer.number ? refused(answer.number, call, before) : cameBack(call, answer, before, after, known, place);
  return [`${asked(call, before)}: ${result}.`, `${runs(before, after)} ${conversations(after)}`, ...answer.rows.map(row => listed(row, after))];
}

// What is known after a call beside the table.
export function knownAfter(call, answer, before, after, known, place) {
  if (answer.number) return known;
  const next = { cleaned: { ...known.cleaned }, kept: { ...known.kept } };
  for (const buffer of movedBetween(before, after)) {
    delete next.cleaned[buffer.number];
    if (call.number === CLEAN && buffer.standing === ANSWERED) next.cleaned[buffer.number] = call.a;
  }
  if (call.number === INTERRUPT && after.edition === 1 && !answer.kind) next.kept[call.a] ??= place;
  if (call.number === WAIT_INTERRUPT) delete next.kept[call.a];
  return next;
}

// A ring as a person draws it: READ > SPELL > READ.
export const ringTold = (ring, station) => [...ring, ring[0]].map(station.name).join(" > ");

// What a table's words show (docs/MONITOR.md, 2): processes, queues, buffers, devices, semaphores. Any words may be read; links
// that lead astray are followed no further than there are records.

export const [STOPPED, RUNNING, FOR_EVENT, FOR_ANSWER, FOR_INTERRUPT, FOR_SEMAPHORE] = [0, 1, 2, 3, 4, 5];
export const [FREE, QUEUED, HELD, ANSWERED, ORPHANED] = [0, 1, 2, 3, 4];
export const KEPT_DEVICE = 0xFFFF;
export const DEVICES = 64;
const HEADER = 72, PROCESS = 16, BUFFER = 10, SEMAPHORE = 4, FIRST_DEVICE = 8;

export const lettersOf = words => words.flatMap(word => [word >> 8, word & 255]);

// A text's bytes without the zeros at their end.
export function trimmed(bytes) {
  let end = bytes.length;
  while (end && bytes[end - 1] === 0) end--;
  return bytes.slice(0, end);
}

const isPrintable = byte => byte >= 0x21 && byte <= 0x7E;
const isLetterOrDigit = byte => /[0-9A-Za-z]/.test(String.fromCharCode(byte));

// A name where it can be printed and begins with a letter or digit, or null.
export function plainName(words) {
  const bytes = trimmed(lettersOf(words));
  return bytes.length && isLetterOrDigit(bytes[0]) && bytes.every(isPrintable) ? String.fromCharCode(...bytes) : null;
}

const signed = word => word >= 0x8000 ? word - 0x10000 : word;

function chain(first, next, most) {
  const found = [];
  for (let one = first; one && found.length < most && !found.includes(one); one = next(one)) found.push(one);
  return found;
}

function processAt(words, p) {
  const at = HEADER + PROCESS * (p - 1), [next, , first, , state, reason, delay, buffer, device, priority, own, owns] = words.slice(at, at + 12);
  const name = plainName([...words.slice(at + 12, at + 15)]) || `#${p}`;
  return { number: p, next, first, state, reason, delay, buffer, device: device - 1, priority, own, owns, name, semaphore: words[at + 15] };
}

function bufferAt(words, b, processes) {
  const at = HEADER + PROCESS * processes + BUFFER * (b - 1), [next, , owner, receiver, standing, age] = words.slice(at, at + 6);
  return { number: b, next, owner, receiver, standing, age, words: [...words.slice(at + 6, at + 10)] };
}

// The station that the words show.
export function stationOf(words) {
  const [first, , edition] = words.slice(2);
  const [count, buffers, semaphores] = [[words[0], 32], [words[1], 128], [words[5], 16]].map(([many, most]) => Math.min(many, most));
  const numbers = many => Array.from({ length: many }, (_, i) => i + 1);
  const processes = numbers(count).map(p => processAt(words, p));
  const all = numbers(buffers).map(b => bufferAt(words, b, count));
  const nextOf = p => (processes[p - 1] || {}).next;
  for (const process of processes) process.queue = chain(process.first, b => (all[b - 1] || {}).next, buffers).filter(b => all[b - 1]);
  const place = HEADER + PROCESS * count + BUFFER * buffers;
  const station = {
    processes, buffers: all, edition, current: first, running: chain(first, nextOf, count).filter(p => processes[p - 1]),
    devices: numbers(DEVICES).map(d => ({ number: d - 1, word: words[FIRST_DEVICE + d - 1] })).filter(device => device.word),
    semaphores: numbers(semaphores).map(s => ({
      number: s, counter: signed(words[place + SEMAPHORE * (s - 1)]), waiters: chain(words[place + SEMAPHORE * (s - 1) + 1], nextOf, count),
    })),
    name: p => processes[p - 1] ? processes[p - 1].name : `#${p}`,
  };
  station.open = all.filter(buffer => buffer.standing !== FREE);
  return station;
}

// The table's records in their order: the place of the first word, how many there are, and what it is.
export function recordsOf(station) {
  const records = [{ place: 0, length: 8, label: "header" }, { place: FIRST_DEVICE, length: DEVICES, label: "devices 0 to 63" }];
  let place = HEADER;
  const add = (length, label) => { records.push({ place, length, label }); place += length; };
  for (const process of station.processes) add(PROCESS, `process ${process.number}, ${process.name}`);
  for (const buffer of station.buffers) add(BUFFER, `buffer ${buffer.number}`);
  for (const semaphore of station.semaphores) add(SEMAPHORE, `semaphore ${semaphore.number}`);
  return records;
}

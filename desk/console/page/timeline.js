// The run over time: a lane for each process, a column for each moment, what it did as a bar, messages and answers as arrows.

import { draw, make } from "./dom.js";
import { ANSWERED, FOR_ANSWER, FOR_EVENT, FOR_INTERRUPT, FOR_SEMAPHORE, QUEUED, RUNNING, stationOf, STOPPED } from "./table.js";

const WIDE = 22, LANE = 24, NAMES = 52, TOP = 16, LETTER = 5.6;

function doing(process, station) {
  switch (process.state) {
    case RUNNING: return process.number === station.current ? ["runs", "runs"] : ["ready", "ready"];
    case FOR_EVENT: return ["event", "event"];
    case FOR_ANSWER: return ["answer", `answer ${process.buffer}`];
    case FOR_INTERRUPT: return ["interrupt", `device ${process.device}`];
    case FOR_SEMAPHORE: return ["semaphore", `semaphore ${process.semaphore}`];
    default: return process.state === STOPPED ? ["stopped", ""] : ["unknown", "?"];
  }
}

// The bars of a lane: stretches of moments in which a process did the same.
function stretches(stations, p) {
  const found = [];
  stations.forEach((station, i) => {
    const [look, label] = doing(station.processes[p], station), last = found.at(-1);
    if (last && last.look === look && last.label === label) last.end = i + 1;
    else found.push({ look, label, first: i, end: i + 1 });
  });
  return found;
}

// From which lane to which something went at a moment.
function went(before, after) {
  return after.buffers.flatMap((buffer, i) => {
    if (!before || before.buffers[i].standing === buffer.standing) return [];
    if (buffer.standing === QUEUED) return [[buffer.owner, buffer.receiver]];
    return buffer.standing === ANSWERED ? [[buffer.receiver, buffer.owner]] : [];
  });
}

const middle = lane => TOP + (lane - 0.5) * LANE;

function bar({ look, label, first, end }, lane) {
  const width = (end - first) * WIDE, shown = label.length * LETTER < width - 4;
  const rect = draw("rect", { class: look, x: NAMES + first * WIDE, y: TOP + lane * LANE + 4, width, height: LANE - 8 }, draw("title", {}, label || look));
  return shown ? [rect, draw("text", { x: NAMES + first * WIDE + 3, y: TOP + lane * LANE + 16 }, label)] : [rect];
}

function arrow([from, to], column) {
  const x = NAMES + column * WIDE + WIDE / 2, [y1, y2] = [middle(from), middle(to)], way = Math.sign(y2 - y1);
  return [draw("line", { class: "went", x1: x, y1, x2: x, y2: y2 - 5 * way }),
    draw("path", { class: "went", d: `M${x - 4} ${y2 - 7 * way}L${x} ${y2}L${x + 4} ${y2 - 7 * way}Z` })];
}

// The timeline of all moments with a table, the one that is shown marked; a click goes to a moment.
export function timeline(run, go) {
  const shown = run.moments.map((moment, i) => ({ moment, i })).filter(({ moment }) => moment.words && !moment.spoiled);
  if (!shown.length) return make("p", { class: "none" }, "The timeline begins with the first call.");
  const stations = shown.map(({ moment }) => stationOf(moment.words)), lanes = stations[0].processes;
  const width = NAMES + stations.length * WIDE + 4, height = TOP + lanes.length * LANE + 4;
  const parts = lanes.flatMap((process, p) => [draw("text", { class: "name", x: 2, y: TOP + p * LANE + 16 }, process.name),
    ...stretches(stations, p).flatMap(one => bar(one, p))]);
  const arrows = stations.flatMap((station, i) => went(stations[i - 1], station).flatMap(one => arrow(one, i)));
  const columns = shown.map(({ moment, i }, column) => draw("rect", { class: i === run.at ? "column here" : "column",
    x: NAMES + column * WIDE, y: 0, width: WIDE, height, onclick: () => go(i) }, draw("title", {}, moment.said)));
  return draw("svg", { role: "img", "aria-label": `A timeline of ${stations.length} moments; the list of calls beside it says the same in words`, width, height,
    viewBox: `0 0 ${width} ${height}` }, ...parts, ...arrows, ...columns);
}

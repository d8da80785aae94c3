// A run: statements done one after the other by the monitor, each kept with the table it left, so that every moment can be shown.

import { Mistake, readLine } from "./language.js";
import { entryTold, refusalTold } from "./layout.js";
import { GIVES_LINES, isMarked, lineSaid, linesOf, Names, rawText, SETTINGS } from "./lines.js";
import { stationOf } from "./table.js";
import { hex, knownAfter, ringTold, told } from "./telling.js";
import { faultTold } from "./why.js";

const NOTHING = { cleaned: {}, kept: {} };
const REFUSED_LAYOUT = 11;
const BEGINNING = {
  said: "", rows: [], raws: [], names: new Names(), edition: 0, counters: [], words: null, known: NOTHING, over: false, torn: false, rings: [], count: 0,
};

// The digits of an answer and of its rows, a line each.
export function answerLines(answer) {
  const digits = words => words.map(word => hex(word)).join("");
  return [hex(answer.number, 2) + digits([answer.kind, answer.buffer, answer.current, ...answer.words]), ...answer.rows.map(digits)];
}

export class Run {
  constructor(monitor) { this.monitor = monitor; this.clear(); }

  clear() { this.moments = [BEGINNING]; this.at = 0; }

  get now() { return this.moments[this.at]; }

  // The station as it is now; before the first call, as it would be laid out. Null where the layout would be refused, or is none.
  station() {
    const now = this.now;
    if (now.words) return stationOf(now.words);
    if (!now.names.entries.length || this.monitor.layOut(now.names.entries, now.edition, now.counters)) return null;
    return stationOf(this.monitor.words());
  }

  go(at) { this.at = Math.max(0, Math.min(this.moments.length - 1, at)); }

  // Does a line of words that belongs to the run; gives whether it did. Throws a Mistake, and has then done nothing.
  say(line) {
    const statement = readLine(line);
    if (!statement) return false;
    this.add(this.momentAfter(statement, line.trim()));
    return true;
  }

  add(moment) {
    this.moments.length = ++this.at; // what was taken back and is now otherwise
    this.moments.push(moment);
  }

  momentAfter(statement, said) {
    const now = this.now, next = { ...now, said, rows: [], raws: [], names: new Names(now.names) };
    if (statement.name === "edition" && !now.names.laid) return { ...next, edition: statement.values[0], rows: [row("", `Edition ${statement.values[0]}.`)] };
    if (statement.name === "semaphore" && !now.names.laid) {
      const counters = [...now.counters, statement.values[0]];
      return { ...next, counters, rows: [row("", `Semaphore ${counters.length}: it begins with ${statement.values[0]}.`)] };
    }
    if (SETTINGS.includes(statement.name)) throw new Mistake(1, `the station is laid out already; '${statement.name}' comes before the first call.`);
    if (statement.name === "torn") return { ...next, torn: true };
    if (!GIVES_LINES.includes(statement.name)) throw new Mistake(1, `'${statement.name}' is a word of the terminal's console; here everything is in view.`);
    if (now.torn) throw new Mistake(1, "nothing comes behind 'torn', which says how the log ends.");
    this.checkCaller(statement.caller);
    for (const bytes of linesOf(statement, next.names)) this.serve(bytes, next);
    next.rings = this.rings(next);
    return next;
  }

  checkCaller(caller) {
    if (!caller) return;
    const number = this.now.names.numberOf(caller), station = this.station();
    if (!station || !station.processes[number - 1]) throw new Mistake(caller.column, `there is no process ${number} that could call.`);
    if (station.current !== number) {
      const runs = station.current ? station.name(station.current) : "nobody";
      throw new Mistake(caller.column, `${station.name(number)} doesn't run, so it can't call: ${runs} runs.`);
    }
  }

  serve(bytes, next) {
    const raw = { bytes, answers: [] }, place = ++next.count, wasLaid = next.names.laid;
    next.raws.push(raw);
    if (next.over || isMarked(bytes)) return;
    const call = next.names.take(bytes, place);
    if (!call) {
      raw.answers = ["FF"];
      next.rows.push(row(place, "No call (FF): nothing is done.", "fault", this.runs(next)));
    } else if (call.number === 0) {
      next.rows.push(row(place, entryTold(next.names.entries), "layout"));
    } else if (!wasLaid && !this.layOut(next)) {
      next.over = true;
      raw.answers = answerLines({ number: REFUSED_LAYOUT, kind: 0, buffer: 0, current: 0, words: [0, 0, 0, 0], rows: [] });
      next.rows.push(row(place, refusalTold(next), "refused"));
    } else this.call(call, raw, place, next);
  }

  layOut(next) {
    if (this.monitor.layOut(next.names.entries, next.edition, next.counters)) return false;
    next.words = this.monitor.words();
    return true;
  }

  call(call, raw, place, next) {
    const before = stationOf(next.words);
    this.monitor.lend(next.words);
    const answer = this.monitor.call(call);
    next.words = this.monitor.words();
    const after = stationOf(next.words), sentences = told(call, answer, before, after, next.known, place);
    next.rows.push(row(place, sentences.join(" "), answer.number ? "refused" : "call", before.current ? before.name(before.current) : "nobody"));
    next.known = knownAfter(call, answer, before, after, next.known, place);
    raw.answers = answerLines(answer);
  }

  runs(next) {
    const station = next.words && stationOf(next.words);
    return !station ? "" : station.current ? station.name(station.current) : "nobody";
  }

  // The rings of a moment; one that wasn't there before is told.
  rings(next) {
    if (!next.words) return [];
    this.monitor.lend(next.words);
    const found = this.monitor.rings(), known = this.now.rings.map(String), station = stationOf(next.words);
    for (const ring of found) if (!known.includes(String(ring))) next.rows.push(row("", `A ring closes: ${ringTold(ring, station)}.`, "ring"));
    for (const ring of this.now.rings) {
      if (!found.map(String).includes(String(ring))) next.rows.push(row("", `The ring is gone: ${ringTold(ring, station)}.`, "ring"));
    }
    return found;
  }

  // Somebody else writes into the table: a word is another from now on. No line of a log says so.
  spoil(place, value) {
    const words = this.now.words.slice();
    words[place] = value;
    this.add({ ...this.now, said: `word ${place} is ${hex(value)}`, raws: [], words, spoiled: true,
      rows: [row("", `Word ${place} of the table becomes ${hex(value)}, by no call. ${faultTold(this.why(words), words).join(" ")}`, "spoil")] });
  }

  // Why words are no sound table, by the monitor.
  why(words) {
    this.monitor.lend(words);
    return this.monitor.why();
  }

  raws() { return this.moments.slice(0, this.at + 1).flatMap(moment => moment.raws); }

  rows() { return this.moments.slice(0, this.at + 1).flatMap(moment => moment.rows); }

  // The log so far, a byte a letter; with answers each stands behind its call.
  log(answers = false) {
    const withAnswers = raw => [...isMarked(raw.bytes) ? [] : [rawText(raw.bytes)], ...raw.answers.map(line => `> ${line}`)];
    const lines = this.raws().flatMap(raw => answers ? withAnswers(raw) : [rawText(raw.bytes)]), text = lines.map(line => `${line}\n`).join("");
    return this.now.torn ? text.slice(0, -1) : text;
  }

  // The run so far in words, a line each.
  words() {
    const { edition, counters, torn } = this.now, names = new Names();
    const settings = [...edition ? [`edition ${edition}`] : [], ...counters.map(counter => `semaphore ${counter}`)];
    return [...settings, ...this.raws().map(raw => lineSaid(raw.bytes, names)), ...torn ? ["torn"] : []];
  }
}

const row = (place, text, kind = "setting", caller = "") => ({ place, text, kind, caller });

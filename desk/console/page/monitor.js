// The proved monitor as WebAssembly: one table in its memory, lent to each call. Nothing here decides what a call does.

const TABLE_MOST = 1928, ROOM_MOST = 640, RECORD_WORDS = 15, LIST_MOST = 165, COUNTERS_MOST = 17, PAGE_BYTES = 65536;
const STUCK_MOST = 32, RINGS_MOST = 48, PROCESSES_MOST = 32, ROW_WORDS = 5, SUMMARY_WORDS = 4;

export class Monitor {
  static async from(bytes) {
    const { instance } = await WebAssembly.instantiate(bytes, {});
    return new Monitor(instance.exports);
  }

  constructor(exports) {
    this.exports = exports;
    this.base = exports.memory.grow(1) * PAGE_BYTES; // a page of memory that the code itself doesn't use
    let at = this.base;
    const room = words => { const place = at; at += 2 * words; return place; };
    [this.table, this.room, this.record, this.list, this.counters, this.report] =
      [TABLE_MOST, ROOM_MOST, RECORD_WORDS, LIST_MOST, COUNTERS_MOST, 4].map(room);
    this.used = 0;
  }

  // Some words of the memory, as they are now.
  view(place, count) { return new Uint16Array(this.exports.memory.buffer, place, count); }

  // The table's words, and these from now on instead.
  words() { return this.view(this.table, this.used).slice(); }
  lend(words) { this.used = words.length; this.view(this.table, words.length).set(words); }

  // Lays out processes { priority, buffers, name: three words }; gives the number of the answer.
  layOut(processes, edition, counters) {
    const list = processes.slice(0, PROCESSES_MOST + 1).flatMap(process => [process.priority, process.buffers, ...process.name]);
    const begin = counters.slice(0, COUNTERS_MOST);
    this.view(this.list, list.length).set(list);
    this.view(this.counters, begin.length).set(begin);
    const before = this.view(this.table, TABLE_MOST).slice();
    this.view(this.table, TABLE_MOST).fill(0);
    const number = this.exports.monitor_layout(this.list, list.length, edition, this.counters, begin.length, this.table, TABLE_MOST);
    const [p, b, , , , s] = this.view(this.table, 6);
    if (number === 0) this.used = 72 + 16 * p + 10 * b + 4 * s;
    else this.view(this.table, TABLE_MOST).set(before);
    return number;
  }

  // Does a call { number, a, b, words }; gives the answer, with the rows of a listing.
  call(call) {
    this.view(this.record, RECORD_WORDS).set([call.number, call.a, call.b, ...call.words, 0, 0, 0, 0, 0, 0, 0, 0]);
    this.exports.monitor_trap(this.table, this.used, this.room, ROOM_MOST, this.record);
    const [number, kind, buffer, current, ...words] = this.view(this.record, RECORD_WORDS).slice(7);
    const listed = call.number === 11 && number === 0 ? [...this.view(this.room, ROW_WORDS * kind)] : [];
    const rows = [];
    for (let i = 0; i < listed.length; i += ROW_WORDS) rows.push(listed.slice(i, i + ROW_WORDS));
    return { number, kind, buffer, current, words, rows };
  }

  // Behind whom a process is stuck: the number of the answer, whether there is a ring, and the processes from it on.
  stuck(process) {
    this.exports.monitor_stuck(this.table, this.used, this.room, STUCK_MOST, process, this.report);
    const [number, count, ring] = this.view(this.report, 3);
    return { number, ring: ring === 1, listed: [...this.view(this.room, count)] };
  }

  // Every ring, each a list of processes.
  rings() {
    this.exports.monitor_rings(this.table, this.used, this.room, RINGS_MOST, this.report);
    const found = [[]];
    for (const process of this.view(this.room, this.view(this.report, 3)[2])) {
      if (process) found[found.length - 1].push(process);
      else found.push([]);
    }
    return found.slice(0, -1);
  }

  // Why the table isn't sound: clause, record and place, all 0 where it is. A structure that C gives is written where it is told to.
  why() {
    this.exports.monitor_why(this.report, this.table, this.used);
    const [clause, record, place] = this.view(this.report, 3);
    return { clause, record, place };
  }

  // For each process the length of its event queue and its open conversations; null where the table is no sound one.
  screen() {
    const number = this.exports.monitor_screen(this.table, this.used, this.room, PROCESSES_MOST);
    if (number !== 0) return null;
    const records = [...this.view(this.room, SUMMARY_WORDS * this.view(this.table, 1)[0])];
    return records.flatMap((_, i) => i % SUMMARY_WORDS ? [] : [{ queue: records[i + 2], sent: records[i + 3] }]);
  }
}

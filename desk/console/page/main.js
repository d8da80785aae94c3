// What the page does: a line of words, buttons, keys, scenarios, files dropped in and saved.

import { at, make } from "./dom.js";
import { GROUPS, MONITOR_BYTES, SCENARIOS } from "./given.js";
import { Mistake, readLine } from "./language.js";
import { isLog, logSaid } from "./lines.js";
import { Monitor } from "./monitor.js";
import { Run } from "./run.js";
import { timeline } from "./timeline.js";
import { buffersView, devicesView, processesView, runningView, semaphoresView, tableView } from "./view.js";
import { faultTold, wordNamed } from "./why.js";

const typed = []; // the lines typed before, and where among them the keys are
let run, lastTyped = 0;

function show(sentence, isMistake = false) {
  at("said").textContent = sentence;
  at("said").className = isMistake ? "mistake" : "";
}

function told(row) {
  return make("li", { class: row.kind }, make("b", {}, `${row.place}`), " ", make("i", {}, row.caller), " ", make("span", {}, row.text));
}

function render() {
  const station = run.station(), now = run.now, rings = now.rings;
  const why = now.over ? "The layout is refused; step back to mend it." : "Nothing is laid out yet: choose a scenario, or say a process.";
  const none = () => make("p", { class: "none" }, why);
  const put = (id, view) => at(id).replaceChildren(station ? view(station) : none());
  put("processes", one => processesView(one, rings, say));
  put("running", runningView);
  put("buffers", buffersView);
  put("devices", devicesView);
  put("semaphores", semaphoresView);
  at("table").replaceChildren(station && now.words ? tableView(now.words, station, run.why(now.words), spoil) : none());
  at("timeline").replaceChildren(timeline(run, go));
  at("log").replaceChildren(...run.rows().map(told));
  at("log").scrollTop = at("log").scrollHeight;
  const here = at("timeline").querySelector(".here");
  if (here) at("timeline").scrollLeft = here.x.baseVal.value - at("timeline").clientWidth / 2;
  at("slider").max = run.moments.length - 1;
  at("slider").value = run.at;
  at("slider").setAttribute("aria-valuetext", `moment ${run.at} of ${run.moments.length - 1}`);
  at("moment").textContent = `${run.at} of ${run.moments.length - 1}`;
  at("line").placeholder = now.names.laid ? 'send SPELL "page 7"' : "process READ priority 5 buffers 2";
  at("prompt").textContent = !now.names.laid ? "layout:" : station && station.current ? `${station.name(station.current)}:` : "nobody:";
  for (const id of ["first", "back"]) at(id).disabled = run.at === 0;
  for (const id of ["forward", "last"]) at(id).disabled = run.at === run.moments.length - 1;
}

function go(to) {
  run.go(to);
  const remark = run.now.said.replace(/"[^"]*"/g, "").split("#")[1];
  show(run.at ? `Step ${run.at}: ${run.now.rows.map(row => row.text).join(" ")}${remark ? ` (${remark.trim()})` : ""}` : "At the beginning.");
  render();
}

// Does a line of words; gives whether it was one.
function say(line) {
  try {
    const statement = readLine(line);
    if (statement && ["undo", "again", "why", "help"].includes(statement.name)) return beside(statement);
    if (!run.say(line)) return true;
    show(run.now.rows.map(row => row.text).join(" "));
    render();
    return true;
  } catch (mistake) {
    if (!(mistake instanceof Mistake)) throw mistake;
    show(mistake.told(), true);
    return false;
  }
}

function beside({ name }) {
  if (name === "help") at("help").open = true;
  else if (name === "why") show(run.now.words ? faultTold(run.why(run.now.words), run.now.words).join(" ") : "Nothing is laid out yet.");
  else go(run.at + (name === "undo" ? -1 : 1));
  return true;
}

function spoil(place) {
  run.spoil(place, (run.now.words[place] + 1) & 0xFFFF);
  show(run.now.rows[0].text);
  render();
}

// Begins anew with some lines of words; the first mistake ends it.
function begin(lines, name, notes = "") {
  run.clear();
  for (const [i, line] of lines.entries()) {
    try {
      if (readLine(line) && !["screen", "open", "rings", "stuck", "table", "why", "help"].includes(readLine(line).name)) run.say(line);
    } catch (mistake) {
      if (!(mistake instanceof Mistake)) throw mistake;
      render();
      return show(`${name}, line ${i + 1}: ${mistake.told()}`, true);
    }
  }
  show(`${name}. ${notes} ${run.moments.length - 1} steps: go through them with the slider, or with the arrow keys.`);
  run.go(0);
  render();
}

// A scenario from its beginning; the table's words are opened where one of them is to be clicked on.
function choose(key) {
  const one = SCENARIOS[key];
  if (!one) return;
  at("table-words").open = key === "spoiled-table";
  begin(one.lines, one.title, one.notes);
}

async function load(file) {
  const bytes = new Uint8Array(await file.arrayBuffer());
  begin(isLog(bytes) ? logSaid(bytes) : new TextDecoder().decode(bytes).split("\n"), file.name);
  run.go(run.moments.length - 1);
  render();
}

function save(name, text) {
  const bytes = Uint8Array.from(text, letter => letter.charCodeAt(0)), link = make("a", { href: URL.createObjectURL(new Blob([bytes])), download: name });
  link.click();
  URL.revokeObjectURL(link.href);
  show(`Saved as ${name}.${run.moments.some(moment => moment.spoiled) ? " What spoiled the table is no call, and isn't in it." : ""}`);
}

const keys = {
  ArrowLeft: () => go(run.at - 1), ArrowRight: () => go(run.at + 1), Home: () => go(0), End: () => go(run.moments.length - 1),
  t: () => say("tick"), "/": () => at("line").focus(),
};

function onKey(event) {
  if (event.ctrlKey || event.altKey || event.metaKey) return;
  if (event.target === at("line")) return onTyping(event);
  if (event.key === "Escape") at("line").focus();
  else if (!event.target.closest("input, select, summary") && Object.hasOwn(keys, event.key)) keys[event.key]();
  else return;
  event.preventDefault();
}

function onTyping(event) {
  const way = { ArrowUp: -1, ArrowDown: 1 }[event.key];
  if (event.key === "Escape") at("line").blur();
  else if (way) {
    lastTyped = Math.max(0, Math.min(typed.length, lastTyped + way));
    at("line").value = typed[lastTyped] ?? "";
  } else return;
  event.preventDefault();
}

function wire() {
  at("words").addEventListener("submit", event => {
    event.preventDefault();
    const line = at("line").value;
    if (!say(line)) return;
    if (line.trim()) lastTyped = typed.push(line);
    at("line").value = "";
  });
  const clicks = { first: keys.Home, back: keys.ArrowLeft, forward: keys.ArrowRight, last: keys.End, tick: keys.t,
    interrupt: () => say(`interrupt ${at("device").value || 0}`), anew: () => { run.clear(); show("A new station: say its processes."); render(); },
    "save-log": () => save("run.log", run.log()), "save-answers": () => save("run-answers.log", run.log(true)),
    "save-words": () => save("run.words", `${run.words().join("\n")}\n`), open: () => at("file").click() };
  for (const [id, does] of Object.entries(clicks)) at(id).addEventListener("click", does);
  at("slider").addEventListener("input", () => go(Number(at("slider").value)));
  at("file").addEventListener("change", () => { if (at("file").files[0]) load(at("file").files[0]); });
  at("scenario").addEventListener("change", () => { choose(at("scenario").value); });
  document.addEventListener("keydown", onKey);
  document.addEventListener("dragover", event => event.preventDefault());
  document.addEventListener("drop", event => { event.preventDefault(); if (event.dataTransfer.files[0]) load(event.dataTransfer.files[0]); });
}

function fill() {
  at("scenario").append(...Object.entries(SCENARIOS).map(([key, one]) => make("option", { value: key }, one.title)));
  at("forms").append(...Object.entries(GROUPS).filter(([group]) => group !== "beside the calls").flatMap(([group, forms]) =>
    [make("h3", {}, group), make("dl", {}, ...forms.flatMap(([pattern, says]) => [make("dt", {}, make("code", {}, pattern)), make("dd", {}, says)]))]));
}

async function main() {
  run = new Run(await Monitor.from(Uint8Array.from(atob(MONITOR_BYTES), letter => letter.charCodeAt(0))));
  fill();
  wire();
  render();
  window.station = { run, say, begin, go, logSaid, wordNamed, Mistake }; // for the tests, and whoever is curious
  document.body.dataset.ready = "yes";
}

main().catch(error => show(`The page can't begin: ${error.message}`, true));

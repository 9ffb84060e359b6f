"use strict";
const given = JSON.parse(document.getElementById("data").textContent);
const by = (id) => document.getElementById(id);
const SIGNS = { T: "T", F: "F", verified: "\u2713", invalid: "\u2717", inactive: "\u2013" };
const COLUMNS = 120, WAIT = 250, LONGEST_LINK = 65536, LONGEST_FILE = 2 << 20, MOST_ROWS = 5000;
const PREFIX = "#p.";
// What the page shows: the last result, the first row on show and the verdict that was clicked.
let result = null, first = 0, picked = null, turn = 0, costed = null, timer = 0;

function make(tag, text, more) {
  const it = document.createElement(tag);
  if (text !== undefined) it.textContent = text;
  return Object.assign(it, more || {});
}

async function call(name, data) {
  try {
    const got = await fetch(name, { method: "POST", headers: { "Content-Type": "application/json" }, body: JSON.stringify(data) });
    return got.ok ? await got.json() : { trouble: got.status === 413 ? "too much text for this page" : `refused (${got.status})` };
  } catch (fault) {
    return { trouble: "the server has ended: start r2u2-play again" };
  }
}

const state = () => ({ spec: by("spec").value, trace: by("trace").value, timed: by("timed").checked });

// The state as a fragment of a link, and back.
function packed(it) {
  const raw = new TextEncoder().encode(JSON.stringify(it));
  let text = "";
  for (let k = 0; k < raw.length; k += 8192) text += String.fromCharCode(...raw.subarray(k, k + 8192));
  return PREFIX + btoa(text).replace(/\+/g, "-").replace(/\//g, "_").replace(/=+$/, "");
}

function unpacked(hash) {
  if (!hash.startsWith(PREFIX)) return null;
  try {
    const text = atob(hash.slice(PREFIX.length).replace(/-/g, "+").replace(/_/g, "/"));
    const it = JSON.parse(new TextDecoder().decode(Uint8Array.from(text, (letter) => letter.charCodeAt(0))));
    return typeof it.spec === "string" && typeof it.trace === "string" ? it : null;
  } catch (fault) {
    return null;
  }
}

function keep() {
  const hash = packed(picked ? { ...state(), picked } : state());
  if (hash.length <= LONGEST_LINK) history.replaceState(null, "", hash);
  else history.replaceState(null, "", location.pathname);
  return hash;
}

function show(it) {
  by("spec").value = it.spec;
  by("trace").value = it.trace;
  by("timed").checked = Boolean(it.timed);
  picked = it.picked && typeof it.picked.name === "string" ? it.picked : null;
  first = picked ? Math.max(0, Number(picked.time) - (COLUMNS >> 1)) : 0;
  result = costed = null;
  run();
}

function later() {
  clearTimeout(timer);
  timer = setTimeout(run, WAIT);
}

async function run() {
  clearTimeout(timer);
  const mine = ++turn, it = state();
  keep();
  const found = await call("run", it);
  if (mine !== turn) return;
  by("said").textContent = found.trouble || "";
  if (found.trouble) return;
  if (found.accepted || !result) result = found.accepted ? found : null;
  faults(found.faults);
  by("refused").textContent = found.accepted ? [found.message, ...found.hints].join("\n") + (found.cut ? " (too many verdicts: the first are shown)" : "") : "";
  draw(found.accepted);
  if (found.accepted && costed !== it.spec) cost(it.spec);
  if (found.accepted && picked) why();
}

// Marks at the tokens at fault, and what is wrong with each.
function faults(list) {
  const text = by("spec").value, starts = [0];
  for (let k = 0; k < text.length; k++) if (text[k] === "\n") starts.push(k + 1);
  const place = (it) => {
    const line = [...text.slice(starts[it.line - 1], starts[it.line] === undefined ? text.length : starts[it.line] - 1)];
    const begin = starts[it.line - 1] + line.slice(0, it.column - 1).join("").length;
    return [begin, begin + Math.max(1, line.slice(it.column - 1, it.column - 1 + it.length).join("").length)];
  };
  const marks = by("marks");
  marks.replaceChildren();
  by("faults").replaceChildren();
  let done = 0;
  for (const it of list || []) {
    const [begin, end] = place(it), line = make("li"), jump = make("button", `line ${it.line}: ${it.message}`);
    if (begin >= done) {
      marks.append(text.slice(done, begin), make("mark", text.slice(begin, end) || " "));
      done = end;
    }
    jump.addEventListener("click", () => { by("spec").focus(); by("spec").setSelectionRange(begin, end); });
    line.append(jump);
    if (it.note) line.append(make("small", it.note));
    by("faults").append(line);
  }
  marks.append(text.slice(done) + "\n");
  scrolled();
}

function scrolled() {
  by("marks").scrollTop = by("spec").scrollTop;
  by("marks").scrollLeft = by("spec").scrollLeft;
}

// The value at a time: the first of the runs that ends there or later has it.
function valueAt(runs, time) {
  let low = 0, high = runs.length;
  while (low < high) {
    const middle = (low + high) >> 1;
    if (runs[middle][0] < time) low = middle + 1; else high = middle;
  }
  return low < runs.length ? runs[low][1] : undefined;
}

const wordAt = (lane, time) => result.words[valueAt(lane.runs, time)];
const times = () => (result ? result.times : 0);

function draw(fresh) {
  const box = by("lanes");
  box.replaceChildren();
  box.style.opacity = fresh ? "" : "0.5";
  if (!result) return;
  first = Math.max(0, Math.min(first, times() - 1));
  const last = Math.min(first + COLUMNS, times()), table = make("table"), head = make("tr");
  head.append(make("th", by("timed").checked ? "time" : "row"));
  for (let time = first; time < last; time++) head.append(make("td", last - first <= 40 || time % 5 === 0 ? String(time) : ""));
  table.append(make("thead"), make("tbody"));
  table.tHead.append(head);
  for (const signal of result.signals) table.tBodies[0].append(signalLane(signal, last));
  for (const lane of result.lanes) table.tBodies[0].append(verdictLane(lane, last));
  box.append(table);
  by("window").textContent = times() ? `${first} to ${last - 1} of ${times()}` : "no rows";
  by("back").disabled = first === 0;
  by("on").disabled = last >= times();
}

function signalLane(signal, last) {
  const line = make("tr");
  line.append(make("th", signal.name, { scope: "row" }));
  let before;
  for (let time = first; time < last; time++) {
    const field = valueAt(signal.runs, time);
    const isTruth = signal.kind === "bool";
    const cell = make("td", isTruth ? (field === "1" ? "1" : "") : field === before && time > first ? "" : field, { title: `${signal.name} at ${time}: ${field}` });
    cell.className = isTruth ? "bool" + field : "value";
    before = field;
    line.append(cell);
  }
  return line;
}

function verdictLane(lane, last) {
  const line = make("tr");
  line.append(make("th", lane.name, { scope: "row" }));
  for (let time = first; time < last; time++) {
    const word = wordAt(lane, time), cell = make("td");
    const button = make("button", word ? SIGNS[word] : "?", { className: `v ` + (word || "open"), title: `${lane.name} at ${time}: ${word || "undecided"}` });
    button.dataset.name = lane.name;
    button.dataset.time = time;
    button.setAttribute("aria-label", button.title);
    button.setAttribute("aria-pressed", String(Boolean(picked && picked.name === lane.name && picked.time === time)));
    cell.append(button);
    line.append(cell);
  }
  return line;
}

async function why() {
  const asked = picked, it = state();
  by("reason").textContent = "..";
  const found = await call("why", { ...it, name: asked.name, time: asked.time });
  if (asked === picked) by("reason").textContent = found.trouble || found.text;
}

function pick(name, time) {
  picked = { name, time };
  if (time < first || time >= first + COLUMNS) first = Math.max(0, time - (COLUMNS >> 1));
  keep();
  draw(true);
  const cell = by("lanes").querySelector('button[aria-pressed="true"]');
  if (cell) cell.scrollIntoView({ block: "nearest", inline: "center" });
  why();
}

// The next time after the picked one, over all lanes, at which a word is F or invalid.
function nextFault() {
  if (!result) return;
  const after = picked ? picked.time : -1, place = picked ? result.lanes.findIndex((lane) => lane.name === picked.name) : 0;
  let best = null;
  result.lanes.forEach((lane, k) => lane.runs.forEach(([end, word], n) => {
    const begin = n ? lane.runs[n - 1][0] + 1 : 0, time = Math.max(begin, k > place ? after : after + 1);
    const bad = ["F", "invalid"].includes(result.words[word]);
    if (bad && time >= 0 && time <= end && (!best || time < best.time)) best = { name: lane.name, time };
  }));
  if (best) pick(best.name, best.time); else by("said").textContent = "no further F or invalid";
}

async function cost(spec) {
  costed = spec;
  const found = await call("cost", { spec });
  if (costed !== spec) return;
  const table = by("costs"), head = make("tr");
  table.replaceChildren(head);
  if (found.trouble) {
    head.append(make("td", found.trouble));
    return;
  }
  for (const name of ["", "delay in rows", "slots", "boxes", "steps a row"]) head.append(make("th", name, { scope: "col" }));
  for (const it of [...found.outputs, { ...found.whole, name: "whole" }]) {
    const line = make("tr");
    line.append(make("th", it.name, { scope: "row" }), ...[it.delay, it.slots, it.boxes, it.steps].map((number) => make("td", number)));
    table.append(line);
  }
}

// Numbers at random from a seed, the same at each time.
function dice(seed) {
  return () => {
    seed = (seed + 0x6d2b79f5) | 0;
    let it = Math.imul(seed ^ (seed >>> 15), 1 | seed);
    it = (it + Math.imul(it ^ (it >>> 7), 61 | it)) ^ it;
    return ((it ^ (it >>> 14)) >>> 0) / 4294967296;
  };
}

// A trace at random: values stay for some rows, and numbers lie near those of the specification.
function random() {
  if (!result) return;
  const count = Math.max(1, Math.min(MOST_ROWS, Number(by("rows").value) || 40)), roll = dice(Number(by("seed").value) || 0);
  const near = result.constants.length ? result.constants : [0, 1];
  const value = (kind) => (kind === "bool" ? Number(roll() < 0.5) : near[Math.floor(roll() * near.length)] + Math.floor(roll() * 3) - 1);
  const lines = ["# " + result.signals.map((signal) => signal.name).join(",")];
  let row = result.signals.map((signal) => value(signal.kind));
  for (let k = 0; k < count; k++) {
    if (k) row = row.map((old, n) => (roll() < 0.6 ? old : value(result.signals[n].kind)));
    lines.push((by("timed").checked ? `@` + k + "," : "") + row.join(","));
  }
  by("trace").value = lines.join("\n") + "\n";
  first = 0;
  picked = null;
  by("reason").textContent = "Click a verdict.";
  run();
}

async function taken(file) {
  if (!file) return;
  if (file.size > LONGEST_FILE) {
    by("refused").textContent = `${file.name} is larger than this page takes`;
    return;
  }
  const text = await file.text();
  by(file.name.endsWith(".c2po") ? "spec" : "trace").value = text;
  if (!file.name.endsWith(".c2po")) by("timed").checked = /^(#[^\n]*\n)?@/.test(text);
  first = 0;
  picked = null;
  run();
}

async function format() {
  const found = await call("format", state());
  if (found.spec !== undefined && found.spec !== by("spec").value) {
    by("spec").value = found.spec;
    run();
  }
}

async function copy() {
  const hash = keep();
  if (hash.length > LONGEST_LINK) {
    by("said").textContent = "too long for a link: keep the two texts as files";
    return;
  }
  try {
    await navigator.clipboard.writeText(location.href);
    by("said").textContent = "the link is copied";
  } catch (fault) {
    by("said").textContent = "the link is in the address bar";
  }
}

function isDark() {
  const chosen = document.documentElement.dataset.theme;
  return chosen ? chosen === "dark" : matchMedia("(prefers-color-scheme: dark)").matches;
}

function dark() {
  document.documentElement.dataset.theme = isDark() ? "light" : "dark";
  by("theme").textContent = isDark() ? "Light" : "Dark";
}

const groups = {};
given.examples.forEach((it, k) => {
  groups[it.group] = groups[it.group] || by("menu").appendChild(make("optgroup", undefined, { label: it.group }));
  groups[it.group].append(make("option", it.title, { value: k }));
});
by("menu").addEventListener("change", () => {
  const it = given.examples[by("menu").value];
  if (it) { picked = null; by("reason").textContent = "Click a verdict."; show(it); }
  by("menu").value = "";
});
for (const id of ["spec", "trace"]) by(id).addEventListener("input", later);
by("timed").addEventListener("change", run);
by("spec").addEventListener("scroll", scrolled);
by("random").addEventListener("click", random);
by("format").addEventListener("click", format);
by("link").addEventListener("click", copy);
by("theme").addEventListener("click", dark);
by("theme").textContent = isDark() ? "Light" : "Dark";
by("next").addEventListener("click", nextFault);
by("back").addEventListener("click", () => { first -= COLUMNS; draw(true); });
by("on").addEventListener("click", () => { first += COLUMNS; draw(true); });
by("file").addEventListener("change", () => { taken(by("file").files[0]); by("file").value = ""; });
by("lanes").addEventListener("click", (event) => {
  const cell = event.target.closest("button.v");
  if (cell) pick(cell.dataset.name, Number(cell.dataset.time));
});
for (const box of document.querySelectorAll(".editor")) {
  box.addEventListener("dragover", (event) => { event.preventDefault(); box.classList.add("drop"); });
  box.addEventListener("dragleave", () => box.classList.remove("drop"));
  box.addEventListener("drop", (event) => {
    event.preventDefault();
    box.classList.remove("drop");
    taken(event.dataTransfer.files[0]);
  });
}
window.addEventListener("hashchange", () => { const it = unpacked(location.hash); if (it) show(it); });
const START = { spec: "INPUT request, grant: bool;\nFTSPEC granted: request -> F[0,3] grant;\n", trace: "# request,grant\n1,0\n0,0\n0,1\n1,0\n" };
show(unpacked(location.hash) || (given.first.spec !== undefined ? given.first : given.examples[0] || START));

"use strict";
const run = JSON.parse(document.getElementById("run").textContent);
const LEFT = 56, ROW = 24, HEAD = 34, WORDS = 1250, MANY = 14, BELOW = 200, NAMESPACE = "http://www.w3.org/2000/svg";
const byId = name => document.getElementById(name);

// What is shown: the filters that are off, the entries that pass them, and which of these stand first.
const off = new Set();
let passing = [], first = 0, rows = 100, pinned = null;

const isOn = (kind, values) => values.length === 0 || values.some(it => !off.has(`${kind} ${it}`));

function isPassing(entry) {
  return entry.across || (isOn("guest", entry.guests) && isOn("queue", entry.queue) && isOn("member", entry.member) && isOn("part", [entry.phase]));
}

function make(parent, name, values, text) {
  const made = document.createElementNS(NAMESPACE, name);
  for (const [key, value] of Object.entries(values)) made.setAttribute(key, value);
  if (text !== undefined) made.textContent = text;
  parent.appendChild(made);
  return made;
}

function element(parent, name, text, kind) {
  const made = document.createElement(name);
  if (text !== undefined) made.textContent = text;
  if (kind) made.className = kind;
  parent.appendChild(made);
  return made;
}

// The lanes that some entries touch, in order.
function lanesOf(numbers) {
  const actors = new Set(numbers.map(it => run.entries[it].who)), cells = new Set(numbers.map(it => run.entries[it].cell));
  return [...run.actors.filter(it => actors.has(it)), ...run.cells.filter(it => cells.has(it))];
}

// The lanes to draw, each with its x: all that pass the filters, or where these are many, those of this page.
function lanesInUse(shown) {
  const all = lanesOf(passing), names = all.length > MANY ? lanesOf(shown) : all;
  const apart = Math.max(52, Math.min(72, 900 / Math.max(1, names.length)));
  return new Map(names.map((name, at) => [name, { x: LEFT + (at + 0.6) * apart, isCell: run.cells.includes(name) }]));
}

function startSvg(parent, width, height) {
  parent.textContent = "";
  return make(parent, "svg", { width, height, xmlns: NAMESPACE });
}

function drawHeads(lanes, width) {
  const svg = startSvg(byId("heads"), width, HEAD);
  for (const [name, lane] of lanes) {
    const [kind, number] = name.split(" ");
    make(svg, "text", { x: lane.x, y: 15, class: "head" }, kind);
    if (number !== undefined) make(svg, "text", { x: lane.x, y: 29, class: "head" }, number);
  }
}

function drawAcross(svg, text, y, width, kind) {
  const group = make(svg, "g", { class: kind });
  make(group, "line", { x1: 0, x2: width, y1: y, y2: y });
  make(group, "text", { x: 6, y: y - 4 }, text);
}

const shortened = (text, most = 60) => text.length > most ? `${text.slice(0, most - 2)}…` : text;

// Whether an entry shows its line of the script: of a command the post alone does.
const isMain = entry => entry.command === null || run.entries[run.commands[entry.command][0]] === entry;

function drawEntry(svg, number, lanes, y, wordsAt, width) {
  const entry = run.entries[number], from = lanes.get(entry.who).x, to = lanes.get(entry.cell).x;
  const group = make(svg, "g", { class: `entry ${entry.tone}`, "data-number": number, "data-cell": entry.cell, "data-place": entry.place });
  if (entry.command !== null) group.setAttribute("data-command", entry.command);
  make(group, "title", {}, `${entry.cell}: ${entry.raw}`);
  make(group, "rect", { x: 0, y: y - ROW / 2, width, height: ROW });
  make(group, "text", { x: LEFT - 10, y: y + 4, class: "small order" }, number);
  make(group, "line", { x1: from, x2: to - 9, y1: y, y2: y });
  make(group, "circle", { cx: from, cy: y, r: 3, class: "point" });
  make(group, "path", { d: `M${to - 3},${y} l-8,-4.5 v9 z`, class: "point" });
  make(group, "text", { x: to + 5, y: y + 4, class: "small" }, entry.place);
  const words = make(group, "text", { x: wordsAt, y: y + 4 });
  make(words, "tspan", {}, `${entry.call} `);
  make(words, "tspan", { class: "reply" }, `→ ${entry.reply}`);
  if (entry.ring) make(words, "tspan", { class: "ring" }, `\u2003${shortened(entry.ring, 90)}`);
  if (entry.line && isMain(entry)) make(words, "tspan", { class: "small" }, `\u2003line ${entry.line}: ${shortened(run.lines[entry.line])}`);
  group.addEventListener("mouseenter", () => pinned === null && mark(number));
  group.addEventListener("mouseleave", () => pinned === null && mark(null));
  group.addEventListener("click", () => pin(pinned === number ? null : number));
}

const PHASES = ["bring-up: the board finds its members", "the guests', workers' and host's lines", "the drain: the board serves what is left"];

function draw() {
  const shown = passing.slice(first, first + rows), lanes = lanesInUse(shown);
  const wordsAt = Math.max(LEFT, ...[...lanes.values()].map(it => it.x)) + 48, width = wordsAt + WORDS;
  drawHeads(lanes, width);
  const svg = startSvg(byId("drawn"), width, 10);
  const back = make(svg, "g", {});
  let y = ROW / 2, phase = first ? run.entries[passing[first - 1]].phase : null;
  for (const number of shown) {
    const entry = run.entries[number];
    if (entry.phase !== phase) {
      drawAcross(svg, PHASES[entry.phase], (y += ROW) - ROW / 2, width, "phase");
      phase = entry.phase;
      y += 4;
    }
    drawEntry(svg, number, lanes, y, wordsAt, width);
    y += ROW;
    if (entry.across) {
      drawAcross(svg, entry.across, (y += 6) - ROW / 2 + 4, width, "across");
      y += 6;
    }
  }
  for (const [, lane] of lanes) make(back, "line", { x1: lane.x, x2: lane.x, y1: 0, y2: y, class: lane.isCell ? "lane cell" : "lane" });
  make(svg, "path", { id: "way" });
  svg.setAttribute("height", y + BELOW);
  tellWhere(shown.length);
  mark(pinned);
}

function tellWhere(count) {
  byId("where").textContent = count ? `${first + 1} to ${first + count} of ${passing.length} entries` : "no entry passes the filters";
  byId("first").disabled = byId("back").disabled = first === 0;
  byId("on").disabled = byId("last").disabled = first + rows >= passing.length;
}

// Marks an entry, and the way of its command.
function mark(number) {
  const svg = byId("drawn").firstChild, entry = number === null ? null : run.entries[number];
  const way = entry === null ? [] : entry.command === null ? [] : run.commands[entry.command];
  svg.classList.toggle("marking", way.length > 0);
  const corners = [];
  for (const group of svg.querySelectorAll(".entry")) {
    const at = Number(group.dataset.number), isPart = way.includes(at);
    group.classList.toggle("way", isPart);
    group.classList.toggle("pinned", at === pinned);
    if (isPart) {
      const line = group.querySelector("line");
      corners.push(`${line.getAttribute("x1")},${line.getAttribute("y1")}`, `${line.getAttribute("x2")},${line.getAttribute("y1")}`);
    }
  }
  byId("way").setAttribute("d", corners.length ? `M${corners.join(" L")}` : "");
  tell(number, way);
}

function tell(number, way) {
  const place = byId("details");
  place.style.display = number === null ? "none" : "block";
  place.textContent = "";
  if (number === null) return;
  const closing = element(place, "button", pinned === null ? "click to keep" : "close", "close");
  closing.addEventListener("click", () => pin(null));
  for (const at of way.length ? way : [number]) {
    const line = element(place, "div"), entry = run.entries[at];
    const link = element(line, "a", `${at}`);
    link.addEventListener("click", () => goTo(at));
    element(line, "span", `  ${entry.who}, ${entry.cell}: ${entry.call} → ${entry.reply}`);
    if (at === number) element(element(line, "div"), "code", `${entry.cell}: ${entry.raw}`);
    if (at === number && entry.ring) element(element(line, "div"), "span", entry.ring);
    if (at === number && entry.line) element(element(line, "div"), "code", `line ${entry.line} of the script: ${run.lines[entry.line]}`);
  }
}

function pin(number) {
  pinned = number;
  mark(number);
}

// Shows the page on which an entry stands; filters that hide it are taken away.
function goTo(number) {
  if (!isPassing(run.entries[number])) off.clear();
  pinned = number;
  filter(number);
  const group = document.querySelector(`.entry[data-number="${number}"]`);
  if (group) byId("board").scrollTop = Number(group.querySelector("line").getAttribute("y1")) - 4 * ROW;
}

function filter(kept) {
  for (const chip of document.querySelectorAll("[data-filter]")) chip.classList.toggle("on", !off.has(chip.dataset.filter));
  passing = run.entries.map((_, at) => at).filter(it => isPassing(run.entries[it]));
  const place = passing.findIndex(it => it >= kept);
  turnTo(place < 0 ? passing.length - 1 : place);
}

function turnTo(place) {
  first = Math.max(0, Math.floor(Math.min(place, passing.length - 1) / rows) * rows);
  draw();
  byId("board").scrollTop = 0;
}

function makeFilters() {
  const kinds = { guest: run.guests, queue: run.queues, member: run.guests, part: run.phases };
  const shown = { part: ["bring-up", "lines", "drain"] };
  for (const [kind, values] of Object.entries(kinds)) {
    const group = element(byId("filters"), "span", undefined, "group");
    element(group, "b", kind);
    for (const value of values) {
      const chip = element(group, "button", shown[kind] ? shown[kind][value] : value);
      chip.dataset.filter = `${kind} ${value}`;
      chip.addEventListener("click", () => { toggle(chip.dataset.filter); });
    }
    if (values.length > 2) for (const [name, isAll] of [["all", true], ["none", false]]) {
      element(group, "button", name, "plain").addEventListener("click", () => {
        for (const value of values) isAll ? off.delete(`${kind} ${value}`) : off.add(`${kind} ${value}`);
        filter(passing[first] ?? 0);
      });
    }
  }
}

function toggle(name) {
  if (!off.delete(name)) off.add(name);
  filter(passing[first] ?? 0);
}

function makeAnswers() {
  for (const [guest, answers] of Object.entries(run.answers)) {
    const list = element(byId("answers"), "ol");
    element(element(list, "li"), "b", guest);
    for (const [line, answer] of answers) {
      const words = answer.length > 80 ? `${answer.slice(0, 64)}… (${answer.length / 2} bytes)` : answer;
      element(element(list, "li"), "code", run.lines[line] ? `${line} ${shortened(run.lines[line])} → ${words}` : `${line} ${words}`);
    }
  }
  if (run.left.length) element(byId("answers"), "p", `The drain ended before these were at rest: ${run.left.join("; ")}`);
}

function wished(text) {
  const words = text.trim().split(/\s+/), place = words.pop();
  if (!words.length) return /^\d+$/.test(place) && Number(place) < run.entries.length ? Number(place) : -1;
  return run.entries.findIndex(it => it.cell === words.join(" ") && String(it.place) === place);
}

function listen() {
  byId("first").addEventListener("click", () => turnTo(0));
  byId("back").addEventListener("click", () => turnTo(first - rows));
  byId("on").addEventListener("click", () => turnTo(first + rows));
  byId("last").addEventListener("click", () => turnTo(passing.length - 1));
  byId("rows").addEventListener("change", event => { rows = Number(event.target.value); turnTo(first); });
  byId("goto").addEventListener("change", event => {
    const number = wished(event.target.value);
    byId("wrong").textContent = number < 0 ? "there is no such entry" : "";
    if (number >= 0) goTo(number);
  });
  byId("seen").addEventListener("toggle", () => { if (!byId("answers").firstChild) makeAnswers(); });
}

// An address may end in '#rows=1000', '#entry=12', '#guest=1' and the like, with '&' between them.
function readAddress() {
  const wishes = new URLSearchParams(location.hash.slice(1));
  if (wishes.has("rows")) rows = Number(wishes.get("rows")) || rows;
  for (const kind of ["guest", "queue", "member", "part"]) {
    const values = { guest: run.guests, queue: run.queues, member: run.guests, part: run.phases }[kind];
    if (wishes.has(kind)) for (const it of values) if (!wishes.get(kind).split(",").includes(String(it))) off.add(`${kind} ${it}`);
  }
  return wishes.has("entry") ? wished(wishes.get("entry")) : -1;
}

makeFilters();
listen();
const asked = readAddress();
if (asked >= 0) goTo(asked); else filter(0);

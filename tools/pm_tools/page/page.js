"use strict";
// Draws the ladder that stands in the page as JSON (tools/pm_tools/ladder.py), and answers to filters, search, zoom and clicks.

const data = JSON.parse(document.getElementById("data").textContent);
const steps = new Map(data.steps.map((step) => [step.number, step]));
const SIZE = { row: 18, heads: 24, head: 14, lane: 96, slot: 13, slots: 64, gap: 190 };
const CONTROL_PORT = 15;
const NS = "http://www.w3.org/2000/svg";
const page = Object.fromEntries([...document.querySelectorAll("[id]")].map((element) => [element.id, element]));
const chosen = { port: "", ticket: "", faults: false, words: "", step: null, find: -1, zoom: 1 };
let layout = null;

const colour = (port) => (port != null && data.colours.ports[port]) || data.colours.grey;
const laneOf = (end, port) => (end === "disk" ? `disk ${port}` : end);

function shape(name, attributes, text) {
  const made = document.createElementNS(NS, name);
  for (const [key, value] of Object.entries(attributes)) made.setAttribute(key, value);
  if (text !== undefined) made.textContent = text;
  return made;
}

// Slot and ticket of each request that a step names.
function ticketsOf(step) {
  return [...step.text.matchAll(/\bslot (\d+) ticket (\d+)/g)].map((found) => Number(found[2]));
}

const isTrouble = (step) =>
  Boolean(step.fault || step.dropped || step.gone || step.ignored || (step.ended && step.ended !== "done"));

function isShown(number) {
  const step = steps.get(number);
  if (!step) return false;
  return (chosen.port === "" || step.port === Number(chosen.port)) &&
    (chosen.ticket === "" || ticketsOf(step).includes(Number(chosen.ticket))) &&
    (!chosen.faults || isTrouble(step));
}

// Where rows and lanes stand: of the rows that are shown, each place counts those above it.
class Layout {
  constructor() {
    const arrows = data.arrows.filter((arrow) => arrow.steps.some(isShown));
    const kept = new Set(data.steps.filter((step) => isShown(step.number)).map((step) => step.number));
    for (const arrow of arrows) for (const number of arrow.steps) kept.add(number);
    this.rows = [];
    this.places = [0];
    data.rows.forEach((row) => {
      if (kept.has(row.step)) this.rows.push(row);
      this.places.push(this.rows.length);
    });
    this.arrows = arrows;
    this.marks = data.marks.filter((mark) => isShown(mark.step));
    this.bars = data.bars.filter((bar) =>
      (chosen.port === "" || bar.port === Number(chosen.port)) && (chosen.ticket === "" || bar.ticket === Number(chosen.ticket)));
    this.slots = data.slots.filter((slot) => this.bars.some((bar) => bar.slot === slot));
    this.setLanes();
  }

  setLanes() {
    const used = new Set(this.arrows.flatMap((arrow) => [arrow.source, arrow.target]).concat(this.marks.map((mark) => mark.lane)));
    const left = SIZE.slots + Math.max(40, SIZE.slot * this.slots.length) + 30;
    this.lanes = new Map([["driver", left], ["host", left + 76], ["pm", left + 76 + SIZE.gap]]);
    data.lanes.slice(3).filter((lane) => used.has(lane)).forEach((lane, place) =>
      this.lanes.set(lane, left + 76 + 2 * SIZE.gap + place * SIZE.lane));
    this.right = Math.max(...this.lanes.values()) + 30;
  }

  y(place) {
    if (place >= data.bottom) return SIZE.head + (this.rows.length + 1) * SIZE.row;
    const row = Math.floor(place);
    return SIZE.head + (this.places[row] + place - row) * SIZE.row;
  }

  x(lane) {
    return this.lanes.get(lane) ?? this.lanes.get("pm");
  }
}

function stepGroup(number, shapes) {
  const group = shape("g", { class: "step", "data-step": number });
  group.append(shape("title", {}, steps.get(number)?.text ?? ""), ...shapes);
  return group;
}

function drawArrow(arrow) {
  const [x1, x2] = [layout.x(arrow.source), layout.x(arrow.target)];
  const [y1, y2] = [layout.y(arrow.begin), layout.y(arrow.end)];
  const side = x2 > x1 ? 1 : -1;
  const stroke = colour(arrow.port);
  const line = { x1, y1, x2, y2, stroke, "stroke-width": 1.4 };
  if (arrow.is_cut) line["stroke-dasharray"] = "4 3";
  const shapes = [shape("line", line)];
  if (arrow.is_dropped) {
    for (const way of [1, -1]) {
      const ends = { x1: x2 - 4, y1: y2 - 4 * way, x2: x2 + 4, y2: y2 + 4 * way };
      shapes.push(shape("line", { ...ends, stroke: data.colours.red, "stroke-width": 2 }));
    }
  } else if (!arrow.is_cut) {
    const points = `${x2},${y2} ${x2 - 7 * side},${y2 - 3.5} ${x2 - 7 * side},${y2 + 3.5}`;
    shapes.push(shape("polygon", { points, fill: stroke }));
  }
  if (arrow.label) shapes.push(labelOf(arrow, x1, x2, y1, y2, side));
  return stepGroup(arrow.steps[arrow.steps.length - 1], shapes);
}

// The name of a FIS stands where it begins; of one that begins above the window, where it ends.
function labelOf(arrow, x1, x2, y1, y2, side) {
  const place = arrow.begin > 0
    ? { x: x1 + 5 * side, y: y1 - 3, "text-anchor": side > 0 ? "start" : "end" }
    : { x: x2 - 12 * side, y: y2 - 3, "text-anchor": side > 0 ? "end" : "start" };
  return shape("text", { ...place, fill: colour(arrow.port), class: "h" }, arrow.label);
}

function drawMark(mark) {
  const [x, y, fill, red] = [layout.x(mark.lane), layout.y(mark.place), colour(mark.port), data.colours.red];
  if (mark.kind === "gone") {
    return stepGroup(mark.step, [1, -1].map((way) =>
      shape("line", { x1: x - 6, y1: y - 6 * way, x2: x + 6, y2: y + 6 * way, stroke: red, "stroke-width": 2.5 })));
  }
  if (mark.kind === "driver") return stepGroup(mark.step, [shape("rect", { x: x - 4, y: y - 4, width: 8, height: 8, fill })]);
  if (mark.kind === "fault") {
    return stepGroup(mark.step, [shape("circle", { cx: x, cy: y, r: 6, fill: "none", stroke: red, "stroke-width": 2.5 })]);
  }
  return stepGroup(mark.step, [shape("circle", { cx: x, cy: y, r: 4, fill })]);
}

function drawRow(row, place) {
  const y = SIZE.head + (place + 1) * SIZE.row;
  const ground = shape("rect", { class: "ground", x: 0, y: y - SIZE.row / 2, width: 4000, height: SIZE.row });
  const shapes = [ground, shape("line", { x1: 40, y1: y, x2: layout.right - 6, y2: y, stroke: "#f0f0f0" }),
    shape("text", { x: 6, y: y + 4, fill: "#999", class: "s" }, row.step)];
  if (row.note) {
    shapes.push(shape("text", { x: layout.right, y: y + 4, fill: row.is_bad ? data.colours.red : colour(row.port) }, row.note));
  }
  return stepGroup(row.step, shapes);
}

function drawBar(bar) {
  const x = SIZE.slots + layout.slots.indexOf(bar.slot) * SIZE.slot;
  const [y1, y2] = [layout.y(bar.begin), layout.y(bar.end)];
  const width = bar.is_issued ? 5 : 10;
  const made = shape("rect", { x: x - width / 2, y: y1, width, height: Math.max(3, y2 - y1), fill: colour(bar.port),
    "fill-opacity": bar.is_issued ? 0.9 : 0.25, rx: 2 });
  made.append(shape("title", {}, `slot ${bar.slot} ticket ${bar.ticket}`));
  const number = shape("text", { x, y: y1 - 1, fill: colour(bar.port), "text-anchor": "middle", class: "s" }, bar.slot);
  return bar.is_issued ? [made] : [made, number];
}

function drawLanes(height) {
  return [...layout.lanes.values()].map((x) => shape("line", { x1: x, y1: 0, x2: x, y2: height, stroke: "#bbb" }));
}

// The names of the lanes, which stay where the ladder is scrolled.
function drawHeads() {
  const shapes = [...layout.lanes].map(([lane, x]) => {
    const fill = lane.startsWith("disk") ? colour(Number(lane.split(" ")[1])) : "#222";
    return shape("text", { x, y: 16, fill, "text-anchor": "middle", class: "l" }, lane);
  });
  if (layout.slots.length) shapes.push(shape("text", { x: SIZE.slots - SIZE.slot / 2, y: 16, class: "l" }, "slots"));
  page.heads.replaceChildren(...shapes);
}

// Both parts of the picture, as large as they are shown.
function setSizes() {
  const longest = Math.max(0, ...layout.rows.map((row) => row.note.length));
  const width = layout.right + 20 + 6.9 * longest;
  const height = SIZE.head + (layout.rows.length + 2) * SIZE.row;
  for (const [part, high] of [[page.heads, SIZE.heads], [page.ladder, height]]) {
    part.setAttribute("viewBox", `0 0 ${width} ${high}`);
    part.setAttribute("width", width * chosen.zoom);
    part.setAttribute("height", high * chosen.zoom);
  }
  page.plain.textContent = `${Math.round(chosen.zoom * 100)} %`;
  return height;
}

function draw() {
  layout = new Layout();
  const height = setSizes();
  const bars = [...layout.bars].sort((one, other) => one.is_issued - other.is_issued);
  drawHeads();
  page.ladder.replaceChildren(...layout.rows.map(drawRow), ...drawLanes(height - SIZE.row), ...bars.flatMap(drawBar),
    ...layout.arrows.map(drawArrow), ...layout.marks.map(drawMark));
  search(false);
  mark();
}

function mark() {
  for (const element of page.ladder.querySelectorAll(".step")) {
    const isChosen = Number(element.dataset.step) === chosen.step;
    element.classList.toggle("chosen", isChosen);
    element.querySelector(".ground")?.classList.toggle("chosen", isChosen);
  }
}

// The steps whose lines have the words; `#N` is the step of that number.
function found() {
  const words = chosen.words.toLowerCase();
  if (!words) return [];
  const has = /^#\d+$/.test(words) ? (step) => `#${step.number}` === words : (step) => step.text.toLowerCase().includes(words);
  return data.steps.filter((step) => has(step) && page.ladder.querySelector(`[data-step="${step.number}"]`));
}

function search(isMoved) {
  const finds = found();
  for (const ground of page.ladder.querySelectorAll(".ground")) {
    ground.classList.toggle("found", finds.some((step) => step.number === Number(ground.parentNode.dataset.step)));
  }
  if (!finds.length) chosen.find = -1;
  const number = finds.length ? ((chosen.find % finds.length) + finds.length) % finds.length : -1;
  const said = isMoved ? `${number + 1} of ${finds.length}` : `${finds.length} found`;
  page.finds.textContent = !chosen.words ? "" : finds.length ? said : "none found";
  if (isMoved && finds.length) choose(finds[number].number, true);
}

function row(name, value, className) {
  const made = document.createElement("tr");
  const [head, cell] = [document.createElement("th"), document.createElement("td")];
  [head.textContent, cell.textContent] = [name, value];
  if (className) cell.className = className;
  made.append(head, cell);
  return made;
}

function table(title, rows) {
  const made = document.createElement("table");
  made.createCaption().textContent = title;
  made.append(...rows);
  return made;
}

// The other steps of the same FIS, on its way.
function wayOf(step) {
  if (!step.frame || step.fis === undefined) return [];
  return data.steps.filter((other) => ["way", "port", "conn", "fis"].every((key) => other[key] === step[key]));
}

function rowsOf(step) {
  const place = step.port === CONTROL_PORT ? "control port" : step.port;
  const rows = [["act", step.act], ["from", laneOf(step.source, step.port)], ["to", laneOf(step.target, step.port)],
    ["port", place], ["connection", step.conn], ["FIS number", step.fis], ["slots", step.slots?.join(", ")],
    ["tickets", ticketsOf(step).join(", ")], ["done slots", step.done?.join(", ")], ["ended", step.ended]];
  const bad = [["fault", step.fault], ["dropped", step.dropped], ["ignored", step.ignored]];
  const isThere = ([, value]) => value !== undefined && value !== null && value !== "";
  return [...rows.filter(isThere).map(([name, value]) => row(name, value)),
    ...bad.filter(isThere).map(([name, value]) => row(name, value, "bad"))];
}

function show(step) {
  const head = document.createElement("h2");
  head.textContent = `Step ${step.number}`;
  const line = document.createElement("p");
  [line.className, line.textContent] = ["line", step.text];
  const parts = [head, line, table("The step", rowsOf(step))];
  if (step.fields.length) {
    const fields = step.fields.map(([name, value, meaning]) => row(name, meaning ? `${value}  ${meaning}` : value));
    parts.push(table("Fields of the FIS", fields));
  }
  if (step.raw) parts.push(table("Its bytes", [row("", step.raw)]));
  const way = wayOf(step);
  if (way.length > 1) parts.push(wayTable(way));
  page.panel.replaceChildren(...parts);
}

function wayTable(way) {
  const hop = (step) => `${step.act}: ${laneOf(step.source, step.port)} to ${laneOf(step.target, step.port)}`;
  const made = table("The way of this FIS", way.map((step) => row(`#${step.number}`, hop(step))));
  [...made.rows].forEach((line, place) => {
    const link = document.createElement("a");
    link.textContent = line.cells[0].textContent;
    link.onclick = () => choose(way[place].number, true);
    line.cells[0].replaceChildren(link);
  });
  return made;
}

function choose(number, isScrolled) {
  const step = steps.get(number);
  if (!step) return;
  chosen.step = number;
  show(step);
  mark();
  if (isScrolled) page.ladder.querySelector(`[data-step="${number}"]`)?.scrollIntoView({ block: "center", inline: "nearest" });
}

function zoom(factor) {
  chosen.zoom = factor === 0 ? 1 : Math.min(5, Math.max(0.1, chosen.zoom * factor));
  setSizes();
}

function offer(select, values, name) {
  for (const value of [...new Set(values)].sort((one, other) => one - other)) {
    select.append(new Option(name(value), value));
  }
}

function moveFind(by) {
  chosen.find += by;
  search(true);
}

function listen() {
  for (const name of ["port", "ticket"]) page[name].onchange = () => { chosen[name] = page[name].value; draw(); };
  page.faults.onchange = () => { chosen.faults = page.faults.checked; draw(); };
  page.search.oninput = () => { chosen.words = page.search.value.trim(); chosen.find = -1; search(false); };
  page.search.onkeydown = (event) => { if (event.key === "Enter") moveFind(event.shiftKey ? -1 : 1); };
  page.next.onclick = () => moveFind(1);
  page.previous.onclick = () => moveFind(-1);
  page.larger.onclick = () => zoom(1.25);
  page.smaller.onclick = () => zoom(0.8);
  page.plain.onclick = () => zoom(0);
  page.view.addEventListener("wheel", (event) => {
    if (!event.ctrlKey) return;
    event.preventDefault();
    zoom(event.deltaY < 0 ? 1.1 : 1 / 1.1);
  }, { passive: false });
  page.ladder.onclick = (event) => {
    const group = event.target.closest(".step");
    if (group) choose(Number(group.dataset.step), false);
  };
  document.onkeydown = (event) => {
    if (event.target.tagName === "INPUT") return;
    if (event.key === "+") zoom(1.25);
    if (event.key === "-") zoom(0.8);
    if (event.key === "0") zoom(0);
  };
}

// `page.html#port=2&ticket=3&search=fault&step=90` opens it so.
function open() {
  const asked = new URLSearchParams(location.hash.slice(1));
  for (const name of ["port", "ticket"]) {
    if (asked.has(name)) page[name].value = chosen[name] = asked.get(name);
  }
  if (asked.has("faults")) page.faults.checked = chosen.faults = true;
  if (asked.has("search")) page.search.value = chosen.words = asked.get("search");
  draw();
  if (asked.has("zoom")) zoom(Number(asked.get("zoom")));
  if (asked.has("step")) choose(Number(asked.get("step")), true);
}

page.title.textContent = document.title;
const ports = data.steps.map((step) => step.port).filter((port) => port !== undefined);
offer(page.port, ports, (port) => (port === CONTROL_PORT ? "control port" : port));
offer(page.ticket, data.steps.flatMap(ticketsOf), (ticket) => ticket);
listen();
open();

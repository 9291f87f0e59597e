"use strict";
// The picked line with all that is known of it, the list of lines, the legend and the keys.

const detail = document.getElementById("detail");
const MOST_IN_GROUP = 40, ROW = 20;
const grouped = d3.format(",");

function element(parent, name, className, text) {
  const made = document.createElement(name);
  if (className) made.className = className;
  if (text !== undefined) made.textContent = text;
  parent.appendChild(made);
  return made;
}

// A line as a button that picks it.
function goButton(parent, line) {
  const button = element(parent, "button", "go");
  button.dataset.line = line;
  element(button, "span", "number", grouped(line));
  element(button, "span", "what", describe(line));
  button.title = shortText(line);
  button.onclick = () => pickLine(line, true);
}

// The line, and of a packet how it fared.
function describe(line) {
  const packet = packetSentAt.get(line);
  if (!packet) return shortText(line);
  const fate = packet.end ? `${packet.fate} at ${grouped(packet.end)}` : packet.fate;
  return `${packet.kind}  ${packet.from} → ${packet.to}, ${fate}`;
}

function fact(table, name, text, line) {
  const row = element(table, "tr");
  element(row, "td", "", name);
  const cell = element(row, "td");
  if (line) goButton(cell, line);
  else cell.textContent = text;
}

function packetFacts(table, packet, line) {
  fact(table, "Packet", `${packet.number} from node ${packet.from} to node ${packet.to}: ${packet.kind}`);
  if (packet.kind === "Heartbeat") fact(table, "It says", packet.told);
  else fact(table, "It says", `epoch ${packet.epoch}` + (packet.told ? ", " + packet.told : ""));
  if (line !== packet.line) fact(table, "Sent", "", packet.line);
  else if (packet.end) fact(table, packet.fate === "delivered" ? "Delivered" : "Ended", "", packet.end);
  else fact(table, "Fate", "under way at the end of the trace");
}

function factsOf(line) {
  const table = document.createElement("table");
  fact(table, "Kind", data.kinds[data.lines.kinds[line - 1]][1]);
  const step = stepOf(line), packet = packetOf(line);
  if (step) fact(table, "Schedule", `line ${grouped(step[2])}: ${step[3]}`);
  if (packet) packetFacts(table, packet, line);
  const refused = /^answer .* refused (\S+)/.exec(textOf(line));
  if (refused && data.causes[refused[1]]) fact(table, refused[1], data.causes[refused[1]]);
  return table;
}

function showGroup(title, lines) {
  if (!lines.length) return;
  element(detail, "div", "form", `${title} (${lines.length})`);
  lines.slice(0, MOST_IN_GROUP).forEach(line => goButton(detail, line));
  if (lines.length > MOST_IN_GROUP) element(detail, "div", "form", `and ${lines.length - MOST_IN_GROUP} more`);
}

function showLine(line, causes) {
  detail.textContent = "";
  const where = element(detail, "div", "where");
  element(where, "span", "", `Line ${grouped(line)} of ${grouped(lineCount)}`);
  [["◀", -1, "The line before that is shown (k)"], ["▶", 1, "The next line that is shown (j)"]].forEach(([text, step, title]) => {
    const button = element(where, "button", "", text);
    button.title = title;
    button.onclick = () => pickNext(step);
  });
  element(detail, "div", "line", shortText(line)).id = "picked-line";
  element(detail, "div", "sentence", sentenceText(sentenceOf(line))).id = "picked-sentence";
  element(detail, "div", "form", shapeOf(line));
  detail.appendChild(factsOf(line));
  const groups = causes.filter(group => group.lines.length);
  if (groups.length) element(detail, "h2", "", "What led to it");
  groups.forEach(group => showGroup(group.title, group.lines));
  const results = resultsOf(line);
  if (results.length) element(detail, "h2", "", "What came of it");
  showGroup("At once, or as its answer", results);
  if (wordOf(line) === "sent") showBytes(line);
  detail.scrollTop = 0;
}

const sentenceText = text => text.replace(/`/g, "");

function showBytes(line) {
  const part = element(detail, "details");
  element(part, "summary", "", "Bytes");
  element(part, "code", "", textOf(line).split(" ").pop());
}

// The list has only the rows in view; it may be a hundred thousand lines long.
const list = document.getElementById("list"), listSpace = document.getElementById("list-space");
let listed = [];

function makeList() {
  const wanted = searched().toLowerCase();
  listed = d3.range(1, lineCount + 1).filter(line =>
    lineShown(line) && (!wanted || textOf(line).toLowerCase().includes(wanted)));
  matches = wanted ? listed : [];
  listSpace.style.height = listed.length * ROW + "px";
  document.getElementById("list-name").textContent =
    `${wanted ? "Lines found" : "Lines shown"}: ${grouped(listed.length)} of ${grouped(lineCount)}`;
  document.getElementById("found").textContent = wanted ? `${grouped(listed.length)} found` : "";
  drawList();
}

function drawList() {
  d3.select(list).selectAll(".row").remove();
  const first = Math.max(Math.floor(list.scrollTop / ROW) - 2, 0);
  const last = Math.min(first + Math.ceil(list.clientHeight / ROW) + 4, listed.length);
  for (let i = first; i < last; i++) {
    const row = element(list, "div", listed[i] === pick.line ? "row picked" : "row");
    row.style.top = i * ROW + "px";
    row.dataset.line = listed[i];
    element(row, "span", "number", grouped(listed[i]));
    element(row, "span", "", shortText(listed[i]));
  }
}

function scrollListTo(line) {
  const place = d3.bisectLeft(listed, line) * ROW;
  if (place < list.scrollTop || place > list.scrollTop + list.clientHeight - ROW) list.scrollTop = place - list.clientHeight / 2;
  drawList();
}

function swatch(parent, text, paint, wide) {
  const item = element(parent, "div", wide ? "swatch wide" : "swatch");
  const sample = element(item, "canvas"), ratio = window.devicePixelRatio || 1;
  sample.width = 26 * ratio;
  sample.height = 18 * ratio;
  sample.style.width = "26px";
  const pen = sample.getContext("2d");
  pen.scale(ratio, ratio);
  paint(pen);
  element(item, "span", "", text);
}

function bandSwatch(parent, text, [colour, pattern]) {
  swatch(parent, text, pen => {
    pen.fillStyle = fillOf(pen, colour, pattern);
    pen.fillRect(1, 3, 24, 12);
    pen.strokeStyle = "rgba(27,31,36,.45)";
    pen.strokeRect(1.5, 3.5, 23, 11);
  });
}

function arrowSwatch(parent, text, colour, width, crossed) {
  swatch(parent, text, pen => {
    pen.strokeStyle = colour;
    pen.lineWidth = width;
    segments([-1, -0.6, 1, 0.6])(pen, 13, 9, 11);
    pen.stroke();
    if (!crossed) return;
    pen.strokeStyle = BAD;
    cross(pen, 23, 15, 3);
    pen.stroke();
  });
}

function showLegend() {
  detail.textContent = "";
  element(detail, "div", "sentence", "Click a mark, a band, an arrow or a line of the list to read it, and to see what led to it.");
  element(detail, "h2", "", "Nodes");
  const nodes = element(detail, "div", "swatches");
  ["down", "forming", "attempting"].forEach(state => bandSwatch(nodes, state, STATE_STYLES[state]));
  memberships.filter(({started}) => started).slice(0, 9)
    .forEach(({epoch}) => bandSwatch(nodes, `member of ${epoch}`, membershipStyle(epoch)));
  element(detail, "h2", "", "Devices");
  element(detail, "div", "", "keys: the nodes whose keys are registered. reservation: its holder and type. word: an epoch, " +
    "in the colour of its membership. A question mark stands where the trace does not tell.");
  element(detail, "h2", "", "Groups and resources, a stripe for each node");
  const states = element(detail, "div", "swatches");
  [["starting", "network part up, or group partly up"], ["up", "up, group online"], ["monitored", "up and monitored"],
    ["faulted", "faulted"], ["stop-failed", "could not be stopped"]].forEach(([state, text]) => bandSwatch(states, text, STATE_STYLES[state]));
  element(detail, "h2", "", "Packets");
  const arrows = element(detail, "div", "swatches");
  arrowSwatch(arrows, "sent and delivered", "rgba(27,31,36,.5)", 1);
  arrowSwatch(arrows, "lost or dropped", "rgba(27,31,36,.5)", 1, true);
  arrowSwatch(arrows, "heartbeat", "rgba(87,96,106,.3)", 1);
  arrowSwatch(arrows, "led to what is picked", "#0072b2", 2);
  element(detail, "h2", "", "Marks");
  const marks = element(detail, "div", "swatches");
  Object.keys(GLYPHS).forEach(name => swatch(marks, GLYPHS[name][5], pen => drawGlyph(pen, name, 13, 9, 5)));
}

const KEYS = [
  ["← →", "move along the trace (also by dragging)"], ["↑ ↓", "scroll the lanes"], ["+ −", "zoom (also the wheel, at the pointer)"],
  ["0", "the whole trace"], ["Home End", "its beginning, its end"], ["j k", "pick the next line that is shown, the one before"],
  ["u", "pick what led to the picked line"], ["c", "bring the picked line to the middle, nearer"], ["/", "find text"],
  ["n N", "the next line with the text, the one before"], ["h", "heartbeats away or back"], ["a", "show all again"],
  ["l", "the legend"], ["?", "these keys"], ["Esc", "pick nothing"],
];

function showKeys() {
  detail.textContent = "";
  element(detail, "h2", "", "Keys and mouse");
  const table = element(detail, "table");
  KEYS.forEach(([keys, text]) => {
    const row = element(table, "tr"), cell = element(row, "td");
    keys.split(" ").forEach(key => element(cell, "kbd", "", key));
    element(row, "td", "", text);
  });
}

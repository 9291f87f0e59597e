"use strict";
// What a person does: moving, zooming, picking, filtering, finding.

const byId = id => document.getElementById(id);
const searched = () => byId("find").value;
const overview = byId("overview");
let drawingDue = false;

function redraw() {
  if (drawingDue) return;
  drawingDue = true;
  requestAnimationFrame(() => {
    drawingDue = false;
    draw();
    showAbout();
  });
}

function showAbout() {
  const brief = data.whole ? "" : "; brief, without ticks and packets";
  const seen = `${d3.format(",")(lineCount)} lines${brief}`;
  byId("about").textContent = lineCount ? seen + (picture.omitted ? ` (${picture.omitted})` : "") : "the trace has no line";
}

function pickLine(line, move) {
  pick.line = line;
  const causes = line ? causesOf(line) : [];
  pick.packets = new Set(d3.merge(causes.map(group => group.packets)));
  pick.lines = new Set(d3.merge(causes.map(group => group.lines)).concat(...[...pick.packets].map(packet => packet.end)));
  if (line) showLine(line, causes);
  else showLegend();
  if (line && move) bringIntoView(line);
  if (line) scrollListTo(line);
  else drawList();
  redraw();
}

// The next line of the list, or the one before; from the beginning of the view where nothing is picked.
function pickNext(step) {
  const at = pick.line || viewFrom();
  const place = step > 0 ? d3.bisectRight(listed, at) : d3.bisectLeft(listed, at) - 1;
  if (listed[place]) pickLine(listed[place], true);
}

function pickCause() {
  const direct = pick.line ? directCauses(pick.line) : [];
  if (direct.length) pickLine(direct[direct.length - 1], true);
}

function chip(parent, text, set, value, title) {
  const button = element(parent, "button", "chip", text);
  button.dataset.value = value;
  button.title = title;
  button.setAttribute("aria-pressed", "true");
  button.onclick = () => {
    if (!set.delete(value)) set.add(value);
    filtersChanged();
  };
}

function makeFilters() {
  data.lanes.filter(lane => lane.kind === "node")
    .forEach(({node}) => chip(byId("filter-nodes"), node, hidden.nodes, node, `Node ${node}`));
  data.groups.forEach((group, i) => chip(byId("filter-groups"), group, hidden.groups, i, `Group ${group}`));
  byId("filter-groups-name").hidden = !data.groups.length;
  const used = new Set(data.lines.kinds);
  data.kinds.forEach(([kind, text], i) => {
    if (used.has(i)) chip(byId("filter-kinds"), kind, hidden.kinds, kind, text);
  });
}

function filtersChanged() {
  [["filter-nodes", hidden.nodes, Number], ["filter-groups", hidden.groups, Number], ["filter-kinds", hidden.kinds, String]]
    .forEach(([id, set, read]) => d3.selectAll(`#${id} .chip`).each(function () {
      const off = set.has(read(this.dataset.value));
      this.classList.toggle("off", off);
      this.setAttribute("aria-pressed", String(!off));
    }));
  layLanes();
  sizeSpacer();
  makeList();
  redraw();
}

function showAll() {
  Object.values(hidden).forEach(set => set.clear());
  filtersChanged();
}

function toggleKind(kind) {
  if (!hidden.kinds.delete(kind)) hidden.kinds.add(kind);
  filtersChanged();
}

// From the picked line on, or from the beginning of the view.
function findNext(step) {
  if (!matches.length) return;
  const at = pick.line || viewFrom();
  const place = step > 0 ? d3.bisectRight(matches, at) : d3.bisectLeft(matches, at) - 1;
  pickLine(matches[(place + matches.length) % matches.length], true);
}

function sizeSpacer() {
  byId("spacer").style.height = AXIS + lanesHeight + 8 + "px";
}

function sizeCanvas(target, width, height) {
  const ratio = window.devicePixelRatio || 1;
  target.width = Math.round(width * ratio);
  target.height = Math.round(height * ratio);
  target.style.width = width + "px";
  target.style.height = height + "px";
}

function resize() {
  picture.width = scroller.clientWidth;
  picture.height = scroller.clientHeight;
  sizeCanvas(canvas, picture.width, picture.height);
  sizeCanvas(overview, byId("stage").clientWidth, 46);
  overviewGround = null;
  drawList();
  redraw();
}

const lanesPoint = event => [event.offsetX, event.offsetY - AXIS + scroller.scrollTop];
const lineUnder = event => scale.invert(Math.max(event.offsetX, LABELS));
const hitUnder = event => event.offsetX > LABELS && event.offsetY > AXIS ? lineAt(...lanesPoint(event)) : 0;

let dragged = null;         // where the mouse was pressed, and whether it moved since

function startDrag(event) {
  dragged = {x: event.clientX, y: event.clientY, moved: false};
}

function moveMouse(event) {
  if (!dragged) return showHint(event);
  const dx = event.clientX - dragged.x, dy = event.clientY - dragged.y;
  if (!dragged.moved && Math.abs(dx) + Math.abs(dy) < 4) return;
  pan(scale.invert(0) - scale.invert(dx));
  scroller.scrollTop -= dy;
  Object.assign(dragged, {x: event.clientX, y: event.clientY, moved: true});
  byId("hint").hidden = true;
  redraw();
}

function endDrag(event) {
  if (dragged && !dragged.moved && event.target === canvas) {
    pickLine(hitUnder(event), false);
    byId("hint").hidden = true;
  }
  dragged = null;
}

function showHint(event) {
  const line = event.target === canvas ? hitUnder(event) : 0, hint = byId("hint");
  canvas.style.cursor = line ? "pointer" : "grab";
  hint.hidden = !line;
  if (!line) return;
  hint.textContent = `${d3.format(",")(line)}  ${describe(line)}`;
  hint.style.left = Math.min(event.offsetX + 12, picture.width - hint.offsetWidth - 8) + "px";
  hint.style.top = Math.min(event.offsetY + 16, picture.height - 30) + "px";
}

function turnWheel(event) {
  event.preventDefault();
  const sideways = event.shiftKey ? event.deltaY || event.deltaX : event.deltaX;
  if (Math.abs(sideways) > Math.abs(event.shiftKey ? 0 : event.deltaY)) pan(sideways / picture.width * (viewTo() - viewFrom()));
  else zoomAt(lineUnder(event), Math.pow(1.0015, event.deltaY));
  redraw();
}

const middle = () => pick.line && pick.line > viewFrom() && pick.line < viewTo() ? pick.line : (viewFrom() + viewTo()) / 2;
const step = () => (viewTo() - viewFrom()) / 8;
const KEY_ACTIONS = {
  ArrowLeft: () => pan(-step()), ArrowRight: () => pan(step()),
  ArrowUp: () => { scroller.scrollTop -= 40; }, ArrowDown: () => { scroller.scrollTop += 40; },
  "+": () => zoomAt(middle(), 1 / 1.5), "=": () => zoomAt(middle(), 1 / 1.5), "-": () => zoomAt(middle(), 1.5),
  "0": () => setView(...wholeTrace), Home: () => pan(-lineCount), End: () => pan(lineCount),
  j: () => pickNext(1), k: () => pickNext(-1), u: pickCause, c: closeUp,
  n: () => findNext(1), N: () => findNext(-1), h: () => toggleKind("heartbeats"), a: showAll,
  l: showLegend, "?": showKeys, Escape: () => pickLine(0, false),
  "/": () => byId("find").focus(),
};

function closeUp() {
  if (pick.line) setView(pick.line - 60, pick.line + 60);
}

function pressKey(event) {
  if (event.ctrlKey || event.metaKey || event.altKey) return;
  if (event.target === byId("find")) return keyInSearch(event);
  const action = KEY_ACTIONS[event.key];
  if (!action) return;
  event.preventDefault();
  byId("hint").hidden = true;
  action();
  redraw();
}

function keyInSearch(event) {
  if (event.key === "Enter") findNext(event.shiftKey ? -1 : 1);
  if (event.key !== "Escape") return;
  byId("find").value = "";
  byId("find").blur();
  makeList();
  redraw();
}

// The whole trace, small, with the part in view.
let overviewGround = null;

function drawOverview() {
  const pen = overview.getContext("2d"), ratio = window.devicePixelRatio || 1;
  if (!overviewGround) overviewGround = paintOverview(ratio);
  pen.setTransform(1, 0, 0, 1, 0, 0);
  pen.clearRect(0, 0, overview.width, overview.height);
  pen.drawImage(overviewGround, 0, 0);
  pen.scale(ratio, ratio);
  const whole = overviewScale();
  pen.fillStyle = "#c23b00";
  matches.slice(0, 20000).forEach(line => pen.fillRect(whole(line), 40, 1.5, 6));
  pen.fillStyle = "rgba(0,114,178,.12)";
  pen.strokeStyle = "#0072b2";
  const from = whole(viewFrom()), to = whole(viewTo());
  pen.fillRect(from, 0, to - from, 46);
  pen.strokeRect(from + 0.5, 1, Math.max(to - from - 1, 2), 44);
}

const overviewScale = () => d3.scale.linear().domain(wholeTrace).range([LABELS + 6, picture.width - 10]);

function paintOverview(ratio) {
  const ground = document.createElement("canvas"), pen = ground.getContext("2d"), whole = overviewScale();
  ground.width = overview.width;
  ground.height = overview.height;
  pen.scale(ratio, ratio);
  pen.fillStyle = "#f6f7f9";
  pen.fillRect(0, 0, picture.width + 20, 46);
  pen.fillStyle = "#57606a";
  pen.font = "11px system-ui, 'DejaVu Sans', sans-serif";
  pen.fillText("whole trace", 8, 27);
  const nodes = data.lanes.filter(lane => lane.kind === "node"), height = Math.min(8, 40 / Math.max(nodes.length, 1));
  nodes.forEach((lane, i) => lane.bands.forEach(band => {
    const [colour, pattern] = bandStyle(band);
    pen.fillStyle = fillOf(pen, colour, pattern);
    pen.fillRect(whole(band[0]), 3 + i * height, Math.max(whole(band[1]) - whole(band[0]), 0.7), height - 1);
  }));
  return ground;
}

function moveOverview(event) {
  if (event.buttons !== 1) return;
  pan(overviewScale().invert(event.offsetX) - (viewFrom() + viewTo()) / 2);
  redraw();
}

function listen() {
  canvas.addEventListener("mousedown", startDrag);
  window.addEventListener("mousemove", moveMouse);
  window.addEventListener("mouseup", endDrag);
  canvas.addEventListener("wheel", turnWheel, {passive: false});
  canvas.addEventListener("dblclick", event => { zoomAt(lineUnder(event), 0.4); redraw(); });
  overview.addEventListener("mousedown", moveOverview);
  overview.addEventListener("mousemove", moveOverview);
  scroller.addEventListener("scroll", redraw);
  list.addEventListener("scroll", drawList);
  list.addEventListener("click", event => {
    const row = event.target.closest(".row");
    if (row) pickLine(Number(row.dataset.line), true);
  });
  window.addEventListener("resize", resize);
  window.addEventListener("keydown", pressKey);
  byId("find").addEventListener("input", () => { makeList(); redraw(); });
  const buttons = {
    "zoom-in": KEY_ACTIONS["+"], "zoom-out": KEY_ACTIONS["-"], fit: KEY_ACTIONS["0"], "show-legend": showLegend,
    "show-keys": showKeys, "filter-none": showAll, "next-found": KEY_ACTIONS.n, "previous-found": KEY_ACTIONS.N};
  Object.keys(buttons).forEach(id => byId(id).addEventListener("click", () => { buttons[id](); redraw(); }));
}

makeFilters();
layLanes();
sizeSpacer();
listen();
makeList();
showLegend();
resize();

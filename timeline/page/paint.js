"use strict";
// Draws what is in view, and keeps for the mouse where what was drawn.

const MOST_HEARTBEATS = 400, MOST_MESSAGES = 2500, BUCKET = 10;
const canvas = document.getElementById("drawing"), context = canvas.getContext("2d");
const scroller = document.getElementById("scroll");
const picture = {width: 0, height: 0, hits: [], omitted: ""};
const pick = {line: 0, lines: new Set(), packets: new Set()};
let matches = [];           // lines that have the text that is looked for

const marksOfLane = new Map();
data.marks.forEach(([line, lane, row, glyph, labels]) => {
  if (!marksOfLane.has(lane)) marksOfLane.set(lane, new Map());
  const rows = marksOfLane.get(lane);
  if (!rows.has(row)) rows.set(row, []);
  rows.get(row).push({line, glyph, labels});
});

const widths = new Map();
function textWidth(text) {
  const key = context.font + text;
  if (!widths.has(key)) widths.set(key, context.measureText(text).width);
  return widths.get(key);
}

const bisectMark = d3.bisector(mark => mark.line).left;
const bisectBand = d3.bisector(band => band[1]).right;

function draw() {
  const ratio = window.devicePixelRatio || 1;
  picture.hits = [];
  picture.omitted = "";
  context.setTransform(ratio, 0, 0, ratio, 0, 0);
  context.clearRect(0, 0, picture.width, picture.height);
  scale.range([LABELS + 6, picture.width - 10]);
  context.save();
  context.beginPath();
  context.rect(LABELS, AXIS, picture.width - LABELS, picture.height - AXIS);
  context.clip();
  context.translate(0, AXIS - scroller.scrollTop);
  drawGround();
  drawPackets();
  laneList.forEach(drawBands);
  drawPickedPackets();
  drawPicked();
  laneList.forEach(drawMarks);
  context.restore();
  drawLabels();
  drawAxis();
  drawOverview();
}

const laneInView = lane =>
  lane.y + lane.height >= scroller.scrollTop && lane.y <= scroller.scrollTop + picture.height;

// Stripes behind the lanes, and lines where rounds are done or the clock is set.
function drawGround() {
  laneList.forEach((lane, i) => {
    context.fillStyle = i % 2 ? "#f7f8fa" : "#ffffff";
    context.fillRect(0, lane.y, picture.width, lane.height);
  });
  let last = -Infinity;
  const limits = marksInView("schedule", 0).filter(({glyph, line}) => (glyph === "rounds" || glyph === "clock") && lineShown(line));
  limits.forEach(({line, glyph}) => {
    const x = scale(line);
    if (x - last < 4) return;
    last = x;
    context.strokeStyle = glyph === "clock" ? "#a9b2bd" : "#dfe3e8";
    context.lineWidth = 1;
    context.beginPath();
    context.moveTo(Math.round(x) + 0.5, 0);
    context.lineTo(Math.round(x) + 0.5, lanesHeight);
    context.stroke();
  });
}

function marksInView(lane, row) {
  const rows = marksOfLane.get(lane), marks = rows && rows.get(row) || [];
  return marks.slice(bisectMark(marks, viewFrom() - 1), bisectMark(marks, viewTo() + 1));
}

function drawBands(lane) {
  if (!laneInView(lane)) return;
  if (lane.kind === "schedule") drawSteps(lane);
  if (lane.kind === "node") drawBandRow(lane.bands, lane.y + BAND.top, BAND.height, bandStyle);
  if (lane.kind === "device") TRACKS.forEach(([name, top]) => drawTrack(lane.tracks[name], lane.y + top, name));
  if (lane.stripes) stripesOf(lane).forEach(([, bands], i) => drawStripe(bands, lane.y + 4 + i * STRIPE));
}

// Calls `paint` with each band in view and its ends; those narrower than half a pixel come as one with the next.
function eachBand(bands, paint) {
  const left = LABELS, right = picture.width;
  let last = -Infinity;
  for (let i = bisectBand(bands, viewFrom() - 1); i < bands.length && bands[i][0] <= viewTo() + 1; i++) {
    const from = Math.max(scale(bands[i][0]), left), to = Math.min(scale(bands[i][1]), right + 20);
    if (to - last < 0.5) continue;
    last = to;
    paint(bands[i], from, to);
  }
}

const hitBand = (line, from, to, y, height) =>
  picture.hits.push({line, x: from, y, width: to - from, height, band: true});

function drawBandRow(bands, y, height, styleOf) {
  eachBand(bands, (band, from, to) => {
    const [colour, pattern] = styleOf(band);
    fillBand(from, to, y, height, colour, pattern);
    labelBand(band, from, to, y, height, colour);
    hitBand(band[0], from, to, y, height);
  });
}

function fillBand(from, to, y, height, colour, pattern) {
  context.fillStyle = fillOf(context, colour, pattern);
  context.fillRect(from, y, Math.max(to - from, 1), height);
  context.strokeStyle = "rgba(27,31,36,.45)";
  context.lineWidth = 1;
  if (to - from > 3) context.strokeRect(from + 0.5, y + 0.5, to - from - 1, height - 1);
}

// What a band may say, the longest first; a node that is down tells why, if the trace does.
function textsOf(band) {
  if (band[2] !== "down") return [band[4], String(band[3] || "")];
  return band[4] ? ["down: " + band[4], band[4], band[4].split(" ")[0]] : ["down"];
}

// The first of its texts that fits, or nothing.
function labelBand(band, from, to, y, height, colour) {
  context.font = "11px system-ui, 'DejaVu Sans', sans-serif";
  const text = textsOf(band).find(text => text && textWidth(text) + 10 < to - from);
  if (!text) return;
  context.textAlign = "left";
  context.fillStyle = colour;
  context.fillRect(from + 3, y + 2, textWidth(text) + 5, height - 4);
  context.fillStyle = isDark(colour) ? "#ffffff" : INK;
  context.fillText(text, from + 5, y + height / 2 + 4);
}

function trackStyle(name, band) {
  if (name === "word") return band[4] === "0" ? ["#ffffff", "plain"] : membershipStyle(band[3]);
  return [band[4] === "none" ? "#ffffff" : name === "keys" ? "#e3e9ef" : "#d9d3e6", "plain"];
}

function drawTrack(bands, y, name) {
  drawBandRow(bands, y, TRACK, band => trackStyle(name, band));
}

function drawStripe(bands, y) {
  context.strokeStyle = "#d5d9de";
  context.lineWidth = 1;
  context.beginPath();
  context.moveTo(LABELS, y + STRIPE / 2);
  context.lineTo(Math.min(scale(wholeTrace[1]), picture.width), y + STRIPE / 2);
  context.stroke();
  eachBand(bands.filter(band => band[2] !== "off"), (band, from, to) => {
    const [colour, pattern] = STATE_STYLES[band[2]];
    context.fillStyle = fillOf(context, colour, pattern);
    context.fillRect(from, y + 1, Math.max(to - from, 1), STRIPE - 2);
    hitBand(band[0], from, to, y, STRIPE);
  });
}

// The lines of the schedule, each over the lines that came of it.
function drawSteps(lane) {
  context.font = "11px system-ui, 'DejaVu Sans', sans-serif";
  context.textAlign = "left";
  let last = -Infinity;
  for (let i = Math.max(d3.bisectRight(stepStarts, viewFrom()) - 1, 0); i < data.steps.length; i++) {
    const [line, end, , text] = data.steps[i], from = Math.max(scale(line), LABELS), to = scale(end);
    if (line > viewTo()) break;
    if (to < LABELS || to - last < 0.5) continue;
    last = to;
    context.fillStyle = i % 2 ? "#e9edf2" : "#dbe2ea";
    context.fillRect(from, lane.y + 2, Math.max(to - from - 0.5, 0.5), 14);
    hitBand(line, from, to, lane.y + 2, 14);
    const fitting = [text, text.split(" ")[0]].find(part => textWidth(part) + 6 < to - from);
    if (!fitting) continue;
    context.fillStyle = INK;
    context.fillText(fitting, from + 3, lane.y + 13);
  }
}

function markSize(lane, row) {
  if (lane.stripes) return 4;
  return lane.kind === "node" && row === 2 ? 3.5 : 5;
}

function drawMarks(lane) {
  const rows = marksOfLane.get(lane.id);
  if (!rows || !laneInView(lane)) return;
  rows.forEach((_, row) => {
    const y = rowOf(lane, row);
    if (y !== undefined) drawRow(bucketed(marksInView(lane.id, row)), y, markSize(lane, row));
  });
}

// Of marks that would lie over each other the one of the greatest rank.
function bucketed(marks) {
  const best = [];
  let last = null;
  marks.forEach(mark => {
    if (!lineShown(mark.line)) return;
    const x = scale(mark.line), rank = GLYPHS[mark.glyph][4];
    if (last && x - last.x < BUCKET) {
      if (rank > last.rank) Object.assign(last, mark, {rank, x: Math.max(x, last.x)});
      return;
    }
    last = {...mark, x, rank};
    best.push(last);
  });
  return best;
}

function drawRow(marks, y, r) {
  marks.forEach((mark, i) => {
    const strong = pick.line === mark.line || pick.lines.has(mark.line);
    if (strong) ring(mark.x, y, r + 3.5, pick.line === mark.line ? 2.5 : 1.5);
    drawGlyph(context, mark.glyph, mark.x, y, r);
    picture.hits.push({line: mark.line, x: mark.x - r - 2, y: y - r - 2, width: 2 * r + 4, height: 2 * r + 4});
    if (mark.labels.length) labelMark(mark, marks[i + 1], y, strong ? r + 4 : r);
  });
}

function ring(x, y, r, width) {
  context.strokeStyle = "#0072b2";
  context.lineWidth = width;
  circle(context, x, y, r);
  context.stroke();
}

// A label stands right of its mark where there is room before the next one.
function labelMark(mark, next, y, r) {
  context.font = "11px system-ui, 'DejaVu Sans', sans-serif";
  context.textAlign = "left";
  const room = (next ? next.x - r - 2 : picture.width) - mark.x - r - 4;
  const label = mark.labels.find(label => textWidth(label) <= room);
  if (!label) return;
  context.fillStyle = GLYPHS[mark.glyph][1];
  context.fillText(label, mark.x + r + 4, y + 4);
}

function drawLabels() {
  context.save();
  context.beginPath();
  context.rect(0, AXIS, LABELS, picture.height - AXIS);
  context.clip();
  context.fillStyle = "#f6f7f9";
  context.fillRect(0, AXIS, LABELS, picture.height);
  context.translate(0, AXIS - scroller.scrollTop);
  laneList.filter(laneInView).forEach(drawLabel);
  context.restore();
  context.strokeStyle = "#c9ced6";
  context.lineWidth = 1;
  context.strokeRect(LABELS - 0.5, -1, 1, picture.height + 2);
}

function drawLabel(lane) {
  context.strokeStyle = "#e3e6ea";
  context.lineWidth = 1;
  context.strokeRect(-1, lane.y - 0.5, LABELS + 2, lane.height);
  context.fillStyle = INK;
  context.textAlign = "left";
  context.font = `${lane.kind === "resource" ? "" : "bold "}12px system-ui, 'DejaVu Sans', sans-serif`;
  const title = shortened(lane.kind === "group" ? "group " + lane.title : lane.title, LABELS - 40);
  context.fillText(title, lane.kind === "resource" && lane.group ? 22 : 8, lane.y + (TITLES[lane.kind] || lane.height / 2 + 4));
  context.font = "10px system-ui, 'DejaVu Sans', sans-serif";
  context.fillStyle = "#57606a";
  context.textAlign = "right";
  if (lane.kind === "device") {
    TRACKS.forEach(([name, top]) => context.fillText(name, LABELS - 6, lane.y + top + 10));
    context.fillText(lane.note, LABELS - 6, lane.y + 13);
  }
  context.font = "9px system-ui, 'DejaVu Sans', sans-serif";
  if (lane.stripes) stripesOf(lane).forEach(([node], i) => context.fillText(node, LABELS - 6, lane.y + 4 + i * STRIPE + 8));
}

function shortened(text, width) {
  if (textWidth(text) <= width) return text;
  let kept = text;
  while (kept && textWidth(kept + "…") > width) kept = kept.slice(0, -1);
  return kept + "…";
}

// Line numbers; below them the lines that have the text looked for.
function drawAxis() {
  context.fillStyle = "#f6f7f9";
  context.fillRect(0, 0, picture.width, AXIS);
  context.font = "11px system-ui, 'DejaVu Sans', sans-serif";
  context.fillStyle = "#57606a";
  context.textAlign = "left";
  context.fillText("line", 8, 21);
  context.textAlign = "center";
  scale.ticks(Math.max(Math.floor(picture.width / 110), 2)).filter(Number.isInteger).forEach(line => {
    if (line < 1 || line > lineCount) return;
    context.fillText(d3.format(",")(line), Math.min(scale(line), picture.width - 24), 17);
    context.fillRect(Math.round(scale(line)), 24, 1, 10);
  });
  context.fillStyle = "#c23b00";
  matchesInView().forEach(line => {
    downward(context, scale(line), AXIS - 5, 4);
    context.fill();
  });
  context.fillStyle = "#0072b2";
  if (pick.line) { downward(context, scale(pick.line), AXIS - 5, 5.5); context.fill(); }
  context.strokeStyle = "#c9ced6";
  context.strokeRect(-1, AXIS - 0.5, picture.width + 2, 1);
}

const matchesInView = () =>
  matches.slice(d3.bisectLeft(matches, viewFrom()), d3.bisectRight(matches, viewTo())).slice(0, 3000);

function drawPicked() {
  if (!pick.line) return;
  context.strokeStyle = "#0072b2";
  context.lineWidth = 1;
  context.setLineDash([4, 3]);
  context.beginPath();
  context.moveTo(scale(pick.line), 0);
  context.lineTo(scale(pick.line), lanesHeight);
  context.stroke();
  context.setLineDash([]);
}

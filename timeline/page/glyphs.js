"use strict";
// Shapes and colours. Each glyph has a shape of its own, so that none is told by its colour alone.

const INK = "#1b1f24", BAD = "#c23b00", GOOD = "#00614a", FAINT = "#8b939d";
// Colours that stay apart for those who do not see all colours (Okabe and Ito), and patterns over them
const MEMBERSHIP_COLOURS = ["#56b4e9", "#e69f00", "#009e73", "#f0e442", "#cc79a7", "#0072b2"];
const PATTERNS = ["plain", "rising", "dots", "falling", "bars"];
const STATE_STYLES = {
  down: ["#5b636d", "plain"], forming: ["#ffffff", "plain"], attempting: ["#ffffff", "rising"],
  starting: ["#56b4e9", "rising"], partly: ["#56b4e9", "rising"], up: ["#56b4e9", "plain"], online: ["#56b4e9", "plain"],
  monitored: ["#0072b2", "plain"], faulted: ["#e69f00", "dots"], "stop-failed": ["#1b1f24", "bars"],
};

const polygon = (...points) => (context, x, y, r) => {
  context.beginPath();
  points.forEach(([dx, dy], i) => context[i ? "lineTo" : "moveTo"](x + dx * r, y + dy * r));
  context.closePath();
};
const circle = (context, x, y, r) => { context.beginPath(); context.arc(x, y, r, 0, 2 * Math.PI); };
const segments = (...parts) => (context, x, y, r) => {
  context.beginPath();
  parts.forEach(([x1, y1, x2, y2]) => {
    context.moveTo(x + x1 * r, y + y1 * r);
    context.lineTo(x + x2 * r, y + y2 * r);
  });
};
const cross = segments([-0.8, -0.8, 0.8, 0.8], [-0.8, 0.8, 0.8, -0.8]);
const square = polygon([-0.8, -0.8], [0.8, -0.8], [0.8, 0.8], [-0.8, 0.8]);
const diamond = polygon([0, -1], [1, 0], [0, 1], [-1, 0]);
const upward = polygon([0, -0.9], [0.9, 0.8], [-0.9, 0.8]);
const downward = polygon([0, 0.9], [0.9, -0.8], [-0.9, -0.8]);
const rightward = polygon([0.9, 0], [-0.7, 0.9], [-0.7, -0.9]);
const leftward = polygon([-0.9, 0], [0.7, 0.9], [0.7, -0.9]);
const octagon = polygon(...d3.range(8).map(i => [Math.cos((i + 0.5) * Math.PI / 4) * 1.15, Math.sin((i + 0.5) * Math.PI / 4) * 1.15]));
const star = polygon(...d3.range(10).map(i => {
  const r = i % 2 ? 0.5 : 1.25, angle = i * Math.PI / 5 - Math.PI / 2;
  return [Math.cos(angle) * r, Math.sin(angle) * r];
}));
const hourglass = polygon([-0.8, -0.9], [0.8, -0.9], [-0.8, 0.9], [0.8, 0.9]);

// For each glyph: its path, its colour, whether it is filled, what is drawn over it, its rank where marks meet
// (the greater is drawn), what it means.
const GLYPHS = {
  panic: [octagon, BAD, true, "!", 99, "panic"],
  ended: [segments([-0.9, -1, -0.9, 1], [-0.3, -0.7, 1, 0.7], [-0.3, 0.7, 1, -0.7]), BAD, false, "", 95, "an attempt ends, with its cause"],
  start: [star, INK, true, "", 94, "a membership starts"],
  crash: [cross, INK, false, "", 93, "the node crashes or is stopped"],
  "refused-write": [downward, BAD, false, "/", 92, "write refused"],
  boot: [upward, INK, false, "", 90, "the node boots"],
  attempt: [rightward, INK, false, "", 89, "an attempt begins"],
  accepted: [downward, GOOD, true, "", 80, "write accepted"],
  member: [diamond, INK, true, "", 70, "the node is a member"],
  installed: [diamond, INK, false, "", 60, "its record is that of the membership"],
  failure: [cross, BAD, false, "", 88, "a method fails"],
  timeout: [hourglass, BAD, false, "", 87, "a method times out"],
  "refused-command": [circle, BAD, false, "/", 86, "a command is refused"],
  unknown: [circle, BAD, false, ".", 85, "a command's outcome is unknown"],
  ack: [square, INK, true, "", 75, "an update is acknowledged (ack)"],
  success: [rightward, GOOD, true, "", 74, "a method succeeds"],
  "success-stop": [leftward, GOOD, true, "", 73, "a method that stops succeeds"],
  propose: [square, INK, false, "", 72, "an update is proposed (propose)"],
  ok: [circle, INK, true, "", 71, "a command is done"],
  probe: [diamond, GOOD, false, ".", 68, "a monitor reports"],
  call: [rightward, GOOD, false, "", 66, "a method is called"],
  "call-stop": [leftward, GOOD, false, "", 66, "a method that stops is called"],
  asked: [circle, INK, false, "", 65, "a command is taken"],
  served: [circle, GOOD, false, ".", 64, "a client is served here"],
  failed: [cross, BAD, false, "", 50, "a device command fails"],
  refusal: [segments([-0.6, 0.6, 0.6, -0.6]), BAD, false, "", 45, "a device refuses a command"],
  did: [(context, x, y, r) => circle(context, x, y, r * 0.45), INK, true, "", 40, "a device command"],
  server: [(context, x, y, r) => square(context, x, y, r * 0.6), INK, false, "", 39, "what a quorum server did"],
  save: [(context, x, y, r) => square(context, x, y, r * 0.45), INK, false, "", 20, "the record is saved"],
  tick: [segments([0, -0.5, 0, 0.5]), FAINT, false, "", 10, "a tick"],
  told: [segments([-0.5, 0, 0.5, 0]), INK, false, "", 30, "an answer tells the state"],
  clock: [circle, INK, false, "l", 60, "the clock is set"],
  rounds: [segments([0, -1, 0, 1], [-0.5, -1, 0.5, -1]), INK, false, "", 50, "rounds are done"],
  other: [segments([0, -0.6, 0, 0.6]), FAINT, false, "", 10, "armed, queued, skipped"],
};

const overGlyph = {"/": segments([-0.9, 0.9, 0.9, -0.9]), "l": segments([0, 0, 0, -0.7], [0, 0, 0.5, 0.2])};

function drawGlyph(context, name, x, y, r) {
  const [path, colour, filled, over] = GLYPHS[name];
  context.lineWidth = 1.5;
  context.strokeStyle = context.fillStyle = colour;
  path(context, x, y, r);
  if (filled) context.fill();
  else if (path !== cross) { context.save(); context.fillStyle = "#fff"; context.fill(); context.restore(); }
  context.stroke();
  if (overGlyph[over]) { overGlyph[over](context, x, y, r); context.stroke(); }
  if (over === ".") { circle(context, x, y, 1.2); context.fill(); }
  if (over === "!") {
    context.fillStyle = "#fff";
    context.font = `bold ${Math.round(r * 1.7)}px sans-serif`;
    context.textAlign = "center";
    context.fillText("!", x, y + r * 0.6);
  }
}

const drawnPatterns = new Map();

// A fill of the colour with the pattern over it; drawn once, and then kept.
function fillOf(context, colour, pattern) {
  if (pattern === "plain") return colour;
  const key = colour + pattern;
  if (!drawnPatterns.has(key)) drawnPatterns.set(key, context.createPattern(patternTile(colour, pattern), "repeat"));
  return drawnPatterns.get(key);
}

function patternTile(colour, pattern) {
  const tile = document.createElement("canvas"), context = tile.getContext("2d");
  tile.width = tile.height = 8;
  context.fillStyle = colour;
  context.fillRect(0, 0, 8, 8);
  context.strokeStyle = context.fillStyle = isDark(colour) ? "rgba(255,255,255,.55)" : "rgba(0,0,0,.3)";
  const slope = pattern === "rising" ? 1 : -1;
  context.beginPath();
  if (pattern === "dots") context.fillRect(2, 2, 2, 2), context.fillRect(6, 6, 2, 2);
  else if (pattern === "bars") context.moveTo(4, 0), context.lineTo(4, 8);
  else [-8, 0, 8].forEach(x => { context.moveTo(x, slope > 0 ? 8 : 0); context.lineTo(x + 8, slope > 0 ? 0 : 8); });
  context.stroke();
  return tile;
}

function isDark(colour) {
  const {r, g, b} = d3.rgb(colour);
  return 0.3 * r + 0.59 * g + 0.11 * b < 120;
}

// The colour and pattern of a membership: neighbours in time differ in both.
function membershipStyle(epoch) {
  const membership = membershipOf.get(epoch);
  if (!membership || membership.place === undefined) return ["#d5d9de", "plain"];
  return [MEMBERSHIP_COLOURS[membership.place % 6], PATTERNS[membership.place % 5]];
}

const bandStyle = band => band[2] === "member" ? membershipStyle(band[3]) : STATE_STYLES[band[2]];

"use strict";
// Where the lanes lie, from top to bottom, and which line lies at which x.

const LABELS = 128;         // width of the column with the lanes' names
const AXIS = 34;            // height of the axis with the line numbers
const STRIPE = 10;          // height of one node's stripe in the lane of a group or resource
const NODE_ROWS = [10, 47, 58];
const BAND = {top: 19, height: 19};
const TITLES = {schedule: 17, node: 33, device: 13};     // where a lane's name stands
const HEIGHTS = {schedule: 30, node: 66, device: 64};
const TRACKS = [["keys", 17], ["reservation", 31], ["word", 45]];
const TRACK = 13;

const wholeTrace = [0.5, Math.max(lineCount, 1) + 1];
const scale = d3.scale.linear().domain(wholeTrace);
let laneList = [];
let laneById = new Map();
let lanesHeight = 0;

function laneHeight(lane) {
  return lane.stripes ? stripesOf(lane).length * STRIPE + 8 : HEIGHTS[lane.kind];
}

const stripesOf = lane => lane.stripes.filter(([node]) => !nodeHidden(node));

function laneHidden(lane) {
  if (lane.kind === "node") return nodeHidden(lane.node);
  if (lane.stripes) return !stripesOf(lane).length || lane.group !== "" && groupHidden(lane.group);
  return false;
}

function layLanes() {
  laneList = data.lanes.filter(lane => !laneHidden(lane));
  laneById = new Map();
  let y = 0;
  laneList.forEach(lane => {
    lane.y = y;
    lane.height = laneHeight(lane);
    y += lane.height;
    laneById.set(lane.id, lane);
  });
  lanesHeight = y;
}

// The middle of a mark's row within its lane; undefined where the row is filtered away.
function rowOf(lane, row) {
  if (lane.kind === "node") return lane.y + NODE_ROWS[row];
  if (lane.kind === "device") return lane.y + 9;
  if (lane.kind === "schedule") return lane.y + 23;
  const place = stripesOf(lane).findIndex(([node]) => node === row);
  return place < 0 ? undefined : lane.y + 4 + (place + 0.5) * STRIPE;
}

function nodeMiddle(node) {
  const lane = laneById.get("node " + node);
  return lane && lane.y + BAND.top + BAND.height / 2;
}

const viewFrom = () => scale.domain()[0];
const viewTo = () => scale.domain()[1];

// Shows these lines; never beyond the trace, and never less than a few lines.
function setView(from, to) {
  const whole = wholeTrace[1] - wholeTrace[0];
  const width = Math.min(Math.max(to - from, Math.min(8, whole)), whole);
  const start = Math.min(Math.max((from + to - width) / 2, wholeTrace[0]), wholeTrace[1] - width);
  scale.domain([start, start + width]);
}

function zoomAt(line, factor) {
  setView(line - (line - viewFrom()) * factor, line + (viewTo() - line) * factor);
}

function pan(lines) {
  const width = viewTo() - viewFrom();
  const from = Math.min(Math.max(viewFrom() + lines, wholeTrace[0]), wholeTrace[1] - width);
  scale.domain([from, from + width]);
}

// Moves the view so far that the line stands well inside it.
function bringIntoView(line) {
  const width = viewTo() - viewFrom();
  if (line < viewFrom() + width * 0.05 || line > viewTo() - width * 0.05) pan(line - width / 2 - viewFrom());
}

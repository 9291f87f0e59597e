"use strict";
// Packets: from the sending to the delivery; what is lost or dropped ends in a cross.

// Every k-th where there are more than can be told apart.
function thinned(list, most, name) {
  if (list.length <= most) return list;
  const step = Math.ceil(list.length / most);
  picture.omitted = `one of ${step} ${name} drawn`;
  return list.filter((_, i) => i % step === 0);
}

function packetsInView() {
  const from = viewFrom(), to = viewTo();
  return packets.filter(packet => packet.line <= to && (packet.end || packet.line + 1) >= from && packetShown(packet));
}

// The more there are, the fainter each is.
function drawPackets() {
  const inView = packetsInView();
  const heartbeats = inView.filter(packet => packet.kind === "Heartbeat");
  const messages = thinned(inView.filter(packet => packet.kind !== "Heartbeat"), MOST_MESSAGES, "messages");
  const dense = heartbeats.length > MOST_HEARTBEATS;
  if (dense) picture.omitted = (picture.omitted ? picture.omitted + "; " : "") + "heartbeats drawn when nearer";
  const heads = messages.length < 500;
  if (!dense) drawArrows(heartbeats, "rgba(87,96,106,.22)", 1, heads);
  drawArrows(messages, `rgba(27,31,36,${messages.length < 120 ? 0.42 : messages.length < 600 ? 0.25 : 0.13})`, 1, heads);
}

// Those that led to the picked line, over the bands.
function drawPickedPackets() {
  const strong = packetsInView().filter(packet => pick.packets.has(packet));
  drawArrows(strong, "#0072b2", 1.8, true);
  const taken = [];
  if (strong.length < 60) strong.forEach(packet => labelArrow(packet, taken));
}

function placeOf(packet) {
  const y1 = nodeMiddle(packet.from), y2 = nodeMiddle(packet.to);
  const down = Math.sign(y2 - y1), gap = BAND.height / 2;
  const from = {x: scale(packet.line), y: y1 + down * gap};
  const whole = {x: scale(packet.end || packet.line + 1), y: y2 - down * gap};
  const part = packet.fate === "delivered" ? 1 : packet.end ? 0.8 : 0.3;
  return {from, to: {x: whole.x, y: from.y + (whole.y - from.y) * part}};
}

function drawArrows(list, colour, width, heads) {
  context.strokeStyle = context.fillStyle = colour;
  context.lineWidth = width;
  const placed = list.map(packet => [packet, placeOf(packet)]);
  context.beginPath();
  placed.forEach(([packet, {from, to}]) => {
    context.moveTo(from.x, from.y);
    context.lineTo(to.x, to.y);
    if (heads) picture.hits.push({line: packet.line, arrow: {from, to}});
  });
  context.stroke();
  placed.forEach(([packet, {from, to}]) => {
    if (packet.end && packet.fate !== "delivered") drawCross(to);
    else if (heads && packet.end) drawHead(from, to);
  });
}

function drawCross(at) {
  context.save();
  context.strokeStyle = BAD;
  context.lineWidth = 1.5;
  cross(context, at.x, at.y, 4.5);
  context.stroke();
  context.restore();
}

function drawHead(from, to) {
  const angle = Math.atan2(to.y - from.y, to.x - from.x);
  context.beginPath();
  context.moveTo(to.x, to.y);
  [2.7, -2.7].forEach(turn => context.lineTo(to.x + 6 * Math.cos(angle + turn), to.y + 6 * Math.sin(angle + turn)));
  context.closePath();
  context.fill();
}

// How far along its arrow a packet's name stands: above the lower of its two lanes, so that it lies on no band.
function labelPlace(packet) {
  const places = [packet.from, packet.to].map(node => laneList.indexOf(laneById.get("node " + node)));
  const half = 0.5 / Math.abs(places[1] - places[0]);
  if (packet.fate !== "delivered") return 0.5;
  return places[1] > places[0] ? 1 - half : half;
}

// The name of a picked message, on its arrow, where no other name stands.
function labelArrow(packet, taken) {
  const {from, to} = placeOf(packet);
  context.font = "10px system-ui, 'DejaVu Sans', sans-serif";
  const width = textWidth(packet.kind) + 4, middle = labelPlace(packet), slope = (to.x - from.x) / (to.y - from.y);
  const y = [0, -11, 11].map(off => from.y + (to.y - from.y) * middle + off)
    .find(y => !taken.some(other => Math.abs(other.y - y) < 11 && Math.abs(other.x - xAt(y)) < (other.width + width) / 2));
  function xAt(y) { return from.x + (y - from.y) * slope; }
  if (y === undefined) return;
  taken.push({x: xAt(y), y, width});
  context.textAlign = "center";
  context.fillStyle = "rgba(255,255,255,.85)";
  context.fillRect(xAt(y) - width / 2, y - 7, width, 12);
  context.fillStyle = "#004f7d";
  context.fillText(packet.kind, xAt(y), y + 3);
}

// How far a point is from an arrow, in pixels.
function distanceTo({from, to}, x, y) {
  const dx = to.x - from.x, dy = to.y - from.y, length = dx * dx + dy * dy || 1;
  const part = Math.min(Math.max(((x - from.x) * dx + (y - from.y) * dy) / length, 0), 1);
  return Math.hypot(x - from.x - part * dx, y - from.y - part * dy);
}

// The line of what lies at a point of the lanes: a mark before a band, a band before an arrow; 0 where nothing lies.
function lineAt(x, y) {
  const inside = hit => x >= hit.x && x <= hit.x + hit.width && y >= hit.y && y <= hit.y + hit.height;
  const mark = picture.hits.filter(hit => !hit.arrow && !hit.band && inside(hit))
    .sort((a, b) => Math.abs(a.x + a.width / 2 - x) - Math.abs(b.x + b.width / 2 - x))[0];
  if (mark) return mark.line;
  const band = picture.hits.find(hit => hit.band && inside(hit));
  if (band) return band.line;
  let best = {far: 5, line: 0};
  picture.hits.forEach(hit => {
    const far = hit.arrow ? distanceTo(hit.arrow, x, y) : Infinity;
    if (far < best.far) best = {far, line: hit.line};
  });
  return best.line;
}

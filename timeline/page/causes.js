"use strict";
// What led to a line, and what came of it.

const ATTEMPT_MESSAGES = ["Collect", "Promise", "Nack", "SeizeQuorum", "SeizeData", "Seized", "Install", "Ready"];
const packetsOfEpoch = d3.map();
packets.forEach(packet => {
  if (packet.kind === "Heartbeat") return;
  if (!packetsOfEpoch.has(packet.epoch)) packetsOfEpoch.set(packet.epoch, []);
  packetsOfEpoch.get(packet.epoch).push(packet);
});

const ownOf = new Map();    // the lines whose origin a line is
data.lines.origins.forEach((origin, i) => {
  if (!origin) return;
  if (!ownOf.has(origin)) ownOf.set(origin, []);
  ownOf.get(origin).push(i + 1);
});

// Packets of an epoch that were sent before a line, by the name of their message.
function messagesBefore(line, epoch, wanted) {
  const found = (packetsOfEpoch.get(epoch) || []).filter(packet => packet.line < line && wanted(packet));
  return d3.nest().key(packet => packet.kind.split(" ")[0]).entries(found)
    .map(({key, values}) => ({title: key, lines: values.map(packet => packet.line), packets: values}));
}

// The device commands of an attempt: its members' between its beginning and the line.
function commandsBefore(line, membership) {
  const lines = [];
  for (let at = membership.attempt; at < line; at++) {
    if (wordOf(at) === "device" && namesOneOf(at, membership.members)) lines.push(at);
  }
  return lines.length ? [{title: "Device commands", lines, packets: []}] : [];
}

function attemptBefore(line, epoch, deliveredOnly) {
  const membership = membershipOf.get(epoch);
  if (!membership || !membership.attempt) return [];
  const wanted = packet => packet.line > membership.attempt && ATTEMPT_MESSAGES.includes(packet.kind.split(" ")[0]) &&
    (!deliveredOnly || packet.fate === "delivered" && packet.end <= line);
  return messagesBefore(line, epoch, wanted).concat(commandsBefore(line, membership));
}

// The earlier lines on which the line rests at once, nearest last.
function directCauses(line) {
  const lines = (data.because[line] || []).concat(originOf(line), firstOf(line));
  const packet = packetEndedAt.get(firstOf(line));
  if (packet) lines.push(packet.line);
  return d3.set(lines.filter(at => at && at < line)).values().map(Number).sort(d3.ascending);
}

// What led to these lines in turn, the nearest first; so many at most.
function furtherBack(lines, most) {
  const seen = new Set(lines), found = [];
  for (let next = lines; next.length && found.length < most;) {
    next = d3.merge(next.map(directCauses)).filter(line => !seen.has(line) && seen.add(line)).sort(d3.descending);
    found.push(...next);
  }
  return found.slice(0, most).sort(d3.ascending);
}

const MOST_BACK = 12;
const GROUPS_BEFORE = {
  start: line => attemptBefore(line, epochOf(line), true),
  ended: line => attemptBefore(line, epochOf(line), false),
  member: line => attemptBefore(originOf(line) || line, epochOf(line), true),
};

// Groups of lines, each with a title and the packets to be drawn strongly.
function causesOf(line) {
  const packetsOf = lines => lines.map(packetOf).filter(packet => packet);
  const direct = directCauses(line), more = GROUPS_BEFORE[wordOf(line)];
  const back = more ? [] : furtherBack(direct, MOST_BACK);
  return [
    {title: "Directly", lines: direct, packets: packetsOf(direct.concat(line))},
    {title: "Further back", lines: back, packets: packetsOf(back)},
  ].concat(more ? more(line) : []);
}

// What came of the line: the rest of its event, the lines that answer it, the end of its packet.
function resultsOf(line) {
  const event = firstOf(line) === line ? eventOf(line).slice(1) : [];
  const packet = packetSentAt.get(line), own = ownOf.get(line) || [];
  const lines = event.concat(own, packet && packet.end ? [packet.end] : []);
  return d3.set(lines.filter(at => at > line)).values().map(Number).sort(d3.ascending);
}

"use strict";
// What the page was given, and look-ups in it. Lines are numbered from 1.

const data = JSON.parse(document.getElementById("data").textContent);
const lineCount = data.lines.texts.length;
const kindNames = data.kinds.map(kind => kind[0]);

const packets = data.packets.map(([number, line, end, from, to, kind, fate, epoch, told]) => ({
  number, line, end, from, to, epoch,
  kind: data.words[kind], fate: data.words[fate], told: data.words[told],
}));
const packetSentAt = new Map(packets.map(packet => [packet.line, packet]));
const packetEndedAt = new Map(packets.filter(packet => packet.end).map(packet => [packet.end, packet]));

const memberships = data.memberships.map(([epoch, attempt, end, started, members]) => ({epoch, attempt, end, started, members}));
const membershipOf = new Map(memberships.map(membership => [membership.epoch, membership]));
memberships.filter(membership => membership.started).forEach((membership, i) => { membership.place = i; });

const textOf = line => data.lines.texts[line - 1];
const kindOf = line => kindNames[data.lines.kinds[line - 1]];
const shapeOf = line => data.forms[data.lines.forms[line - 1]][0];
const sentenceOf = line => data.forms[data.lines.forms[line - 1]][1];
const wordOf = line => textOf(line).split(" ", 1)[0];
const firstOf = line => data.lines.firsts[line - 1];
const originOf = line => data.lines.origins[line - 1];
const epochOf = line => data.lines.epochs[line - 1];
const namesOneOf = (line, nodes) => nodes.some(node => (data.lines.nodes[line - 1] >>> (node - 1)) & 1);
const packetOf = line => packetSentAt.get(line) || packetEndedAt.get(line) || null;

// The bytes of a packet are long and mean little to a reader.
const shortText = line => wordOf(line) === "sent" ? textOf(line).replace(/ [0-9a-f]+$/, "") : textOf(line);

const stepStarts = data.steps.map(step => step[0]);

function stepOf(line) {
  const step = data.steps[d3.bisectRight(stepStarts, line) - 1];
  return step && line < step[1] ? step : null;
}

// The lines of one event: they follow each other.
function eventOf(line) {
  const first = firstOf(line), lines = [];
  if (!first) return [line];
  for (let at = first; at <= lineCount && firstOf(at) === first; at++) lines.push(at);
  return lines;
}

// What is filtered away: node numbers, group places and kind names.
const hidden = {nodes: new Set(), groups: new Set(), kinds: new Set()};

function nodesHidden(mask) {
  if (!mask || !hidden.nodes.size) return false;
  for (let node = 1; node <= 32; node++) {
    if ((mask >>> (node - 1)) & 1 && !hidden.nodes.has(node)) return false;
  }
  return true;
}

const nodeHidden = node => hidden.nodes.has(node);
const groupHidden = name => hidden.groups.has(data.groups.indexOf(name));

function lineShown(line) {
  const group = data.lines.groups[line - 1];
  if (hidden.kinds.has(kindOf(line)) || hidden.groups.has(group)) return false;
  return !nodesHidden(data.lines.nodes[line - 1]);
}

function packetShown(packet) {
  if (nodeHidden(packet.from) || nodeHidden(packet.to)) return false;
  return !hidden.kinds.has(packet.kind === "Heartbeat" ? "heartbeats" : "messages");
}

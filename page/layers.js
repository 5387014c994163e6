// Places of a picture in layers: the wire that is explained stands in layer 0, and each wire one layer before the first
// gate that reads it, or more. A wire that is read far away passes the layers between by way points.

/** Longest distance of each node from the root, by its wire. */
function depths(nodes) {
  const byWire = new Map(nodes.map((node) => [node.wire, node]));
  const order = [];
  const done = new Set();
  const stack = [[nodes[0].wire, 0]];
  while (stack.length > 0) {
    const top = stack.at(-1);
    const operand = byWire.get(top[0]).operands[top[1]++];
    if (operand === undefined) {
      order.push(stack.pop()[0]);
    } else if (!done.has(operand)) {
      done.add(operand);
      stack.push([operand, 0]);
    }
  }
  const depth = new Map([[nodes[0].wire, 0]]);
  for (const wire of order.reverse()) {
    for (const operand of byWire.get(wire).operands) {
      depth.set(operand, Math.max(depth.get(operand) ?? 0, depth.get(wire) + 1));
    }
  }
  return depth;
}

/** The places of nodes and way points, { node, wire, layer, next } where next are the places one layer nearer. */
function placesOf(nodes) {
  const depth = depths(nodes);
  const layers = [];
  const at = new Map();
  const place = (wire, layer, node) => {
    const made = { node, wire, layer, next: [], before: [] };
    (layers[layer] ??= []).push(made);
    at.set(`${wire}/${layer}`, made);
    return made;
  };
  nodes.forEach((node) => place(node.wire, depth.get(node.wire), node));
  for (const reader of nodes) {
    const near = at.get(`${reader.wire}/${depth.get(reader.wire)}`);
    for (const operand of new Set(reader.operands)) {
      let target = near;
      for (let layer = near.layer + 1; target; layer++) {
        const known = at.get(`${operand}/${layer}`);
        const source = known ?? place(operand, layer);
        source.next.push(target);
        target.before.push(source);
        target = known ? undefined : source;
      }
    }
  }
  return layers;
}

const mean = (list, other) => list.reduce((sum, item) => sum + item.order, 0) / list.length || other;

/** Orders each layer by the middle of its neighbours, a few times to and fro, so that few lines cross. */
function settle(layers) {
  const number = (layer) => layer.forEach((place, order) => (place.order = order));
  layers.forEach(number);
  for (let round = 0; round < 8; round++) {
    const outward = round % 2 === 0;
    for (const layer of outward ? layers : [...layers].reverse()) {
      const middle = new Map(layer.map((place) => [place, mean(outward ? place.next : place.before, place.order)]));
      layer.sort((left, right) => middle.get(left) - middle.get(right));
      number(layer);
    }
  }
}

/** The layers of a cone's nodes, the first being the root: lists of places, in order. */
export function layersOf(nodes) {
  const layers = placesOf(nodes);
  settle(layers);
  return layers;
}

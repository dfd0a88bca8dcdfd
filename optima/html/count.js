"use strict";
// The nodes of orders, counted here from the truth tables of the functions.
const PAUSE = 50, PATIENCE = 300;
const canCount = () => typeof DecompressionStream !== "undefined";

/** The truth tables of a function, one behind another: the bit p of each is its value at the point p. */
async function tablesOf(it) {
  const packed = Uint8Array.from(atob(it.tables), (letter) => letter.charCodeAt(0));
  const stream = new Blob([packed]).stream().pipeThrough(new DecompressionStream("deflate"));
  return new Uint8Array(await new Response(stream).arrayBuffer());
}

/** All points, so that the first input of an order, its top one, changes in the middle alone. */
function pointsUnder(order) {
  const points = new Uint32Array(2 ** order.length);
  let size = 1;
  for (const x of [...order].reverse()) {
    for (let i = 0; i < size; i += 1) points[size + i] = points[i] | 1 << x;
    size *= 2;
  }
  return points;
}

/** The values of all outputs at the points under an order. */
function valuesUnder(order, outputs, tables) {
  const points = pointsUnder(order), values = new Uint32Array(outputs * points.length), bytes = tables.length / outputs;
  for (let j = 0, at = 0; j < outputs; j += 1)
    for (const point of points) {
      values[at] = tables[j * bytes + (point >> 3)] >> (point & 7) & 1;
      at += 1;
    }
  return values;
}

/** The decision nodes under an order of the shared diagram of all outputs, without complement edges. */
function nodesUnder(order, outputs, tables) {
  // level by level from below, pairs of ids become ids in the same place; 0 and 1 are the constants
  const ids = valuesUnder(order, outputs, tables), lows = new Uint32Array(ids.length + 2), highs = new Uint32Array(ids.length + 2);
  let next = 2;
  for (let pairs = ids.length / 2; pairs >= outputs; pairs /= 2) {
    const slots = new Uint32Array(2 ** Math.ceil(Math.log2(2 * pairs))), mask = slots.length - 1;
    for (let i = 0; i < pairs; i += 1) {
      const low = ids[2 * i], high = ids[2 * i + 1];
      let id = low;
      if (low !== high) {
        let at = (Math.imul(low, 0x9e3779b1) ^ Math.imul(high, 0x85ebca6b)) >>> 7 & mask;
        while (slots[at] && (lows[slots[at]] !== low || highs[slots[at]] !== high)) at = at + 1 & mask;
        if (!slots[at]) {
          [lows[next], highs[next], slots[at]] = [low, high, next];
          next += 1;
        }
        id = slots[at];
      }
      ids[i] = id;
    }
  }
  return next - 2;
}

/** Gives the results with an order the nodes that are counted, and beside these their own. */
async function countResults(results) {
  const orders = results.filter((it) => it.order), byFunction = new Map(orders.map((it) => [it.name, []]));
  for (const it of orders) byFunction.get(it.name).push(it);
  const begun = performance.now();
  let paused = begun, done = 0;
  for (const [name, its] of byFunction) {
    const it = byName.get(name), tables = await tablesOf(it), known = new Map();
    for (const result of its) {
      const key = result.order.join();
      if (!known.has(key)) known.set(key, nodesUnder(result.order, it.outputs, tables));
      [result.own, result.nodes] = [result.nodes, known.get(key)];
      done += 1;
      if (performance.now() - paused < PAUSE) continue;
      if (performance.now() - begun > PATIENCE) say(`Counting: ${done} of ${orders.length} orders.`);
      // the browser draws meanwhile
      await new Promise((resolve) => { setTimeout(resolve); });
      paused = performance.now();
    }
  }
}

// A graph of what waits for what: which rows are in it, its critical chain, and the place of each row.
const NODE = { wide: 180, high: 40, gap: 12, between: 44, bend: 6, apart: 26 };
const MOST_NODES = 240, MOST_PAIRS = 1200, SWEEPS = 8;

/** The pairs among rows, both ways: of each row those that it waits for, and those that wait for it. */
function pairsAmong(rows) {
  const inside = new Set(rows), ins = new Map(), outs = new Map();
  for (const i of inside) {
    for (const k of before.get(i) || []) {
      if (k === i || !inside.has(k)) continue;
      put(ins, i, k);
      put(outs, k, i);
    }
  }
  const to = (map, i) => map.get(i) || [];
  return { nodes: [...inside].filter(i => ins.has(i) || outs.has(i)), ins: i => to(ins, i), outs: i => to(outs, i) };
}

/** Rows, and all that they wait for and that isn't complete, also if it arrives in other hours. */
function withWaits(rows) {
  const found = new Set(rows), left = [...rows];
  while (left.length) {
    for (const k of openBefore(left.pop())) {
      if (found.has(k) || !isWanted(k)) continue;
      found.add(k);
      left.push(k);
    }
  }
  return [...found].sort((a, b) => a - b);
}

/** Rows, each after all that it waits for; those in a loop, which no sound plan has, at the end. */
function inOrder({ nodes, ins, outs }) {
  const left = new Map(nodes.map(i => [i, ins(i).length])), order = nodes.filter(i => !left.get(i));
  for (let at = 0; at < order.length; at++) {
    for (const k of outs(order[at])) {
      left.set(k, left.get(k) - 1);
      if (!left.get(k)) order.push(k);
    }
  }
  const reached = new Set(order);
  return [...order, ...nodes.filter(i => !reached.has(i))];
}

const isLeft = i => isOpen(i) || state(i) === 'L';

/** The longest chain of rows that are still to be done, each counted as one; of several, the one that is due first. If
 *  nothing is left to do, the longest of all. */
function criticalChain(graph) {
  const order = inOrder(graph), left = order.filter(isLeft), best = new Map();
  const better = (a, b) => best.get(b).length - best.get(a).length || due[a] - due[b] || a - b;
  for (const i of left.length ? left : order) {
    const [from] = graph.ins(i).filter(k => best.has(k)).sort(better);
    best.set(i, { length: 1 + (from === undefined ? 0 : best.get(from).length), from });
  }
  const chain = [];
  for (let i = [...best.keys()].sort(better)[0]; i !== undefined; i = best.get(i).from) chain.unshift(i);
  return chain.length > 1 ? chain : [];
}

/** Of too many rows, those nearest to the critical chain, and then those in trouble with what is near them. */
function nearest({ nodes, ins, outs }, chain) {
  if (nodes.length <= MOST_NODES) return nodes;
  const kept = new Set(), seeds = [chain, ...nodes.filter(isTrouble).map(i => [i]), ...nodes.map(i => [i])];
  for (const seed of seeds) {
    const queue = [...seed];
    for (let at = 0; at < queue.length && kept.size < MOST_NODES; at++) {
      if (kept.has(queue[at])) continue;
      kept.add(queue[at]);
      queue.push(...ins(queue[at]), ...outs(queue[at]));
    }
  }
  return [...kept].sort((a, b) => a - b);
}

/** The connected parts of a graph: that of the critical chain first, then those in trouble, then the large. */
function partsOf({ nodes, ins, outs }, chain) {
  const seen = new Set(), parts = [];
  for (const start of nodes) {
    const part = [], left = [start];
    while (left.length) {
      const i = left.pop();
      if (seen.has(i)) continue;
      seen.add(i);
      part.push(i);
      left.push(...ins(i), ...outs(i));
    }
    if (part.length) parts.push(part);
  }
  const rank = part => (part.includes(chain[0]) ? 2 : 0) + (part.some(isTrouble) ? 1 : 0);
  return parts.sort((a, b) => rank(b) - rank(a) || b.length - a.length || Math.min(...a) - Math.min(...b));
}

/** The column of each row: after all that it waits for, and as near to what waits for it as can be. */
function columnsOf(part, { ins, outs }) {
  const order = inOrder({ nodes: part, ins, outs }), column = new Map();
  for (const i of order) column.set(i, 1 + Math.max(-1, ...ins(i).map(k => column.get(k) ?? -1)));
  for (const i of order.reverse()) {
    const next = Math.min(...outs(i).map(k => column.get(k)));
    if (outs(i).length >= ins(i).length && next - 1 > column.get(i)) column.set(i, next - 1);
  }
  return column;
}

/** The columns of a part as lists of items, with an item wherever a pair passes a column. */
function itemsOf(part, graph, pairs) {
  const column = columnsOf(part, graph), columns = [], items = new Map();
  const add = item => { (columns[item.column] ??= []).push(item); return item; };
  for (const i of part) {
    items.set(i, add({ row: i, column: column.get(i), high: NODE.high, near: [[], []], order: ia[i] }));
  }
  for (const [row, successor] of pairs) {
    const last = items.get(successor), way = [items.get(row)];
    for (let c = way[0].column + 1; c < last.column; c++) {
      way.push(add({ column: c, high: NODE.bend, near: [[], []], order: ia[row] }));
    }
    way.push(last);
    way.slice(1).forEach((item, n) => {
      item.near[0].push(way[n]);
      way[n].near[1].push(item);
    });
    (last.ways ??= []).push({ row, successor, way });
  }
  return { columns, items };
}

const mean = numbers => numbers.reduce((sum, one) => sum + one, 0) / numbers.length;

/** Puts the items of each column in an order in which few pairs cross. */
function sortColumns(columns) {
  for (const items of columns) items.sort((a, b) => a.order - b.order);
  for (let sweep = 0; sweep < SWEEPS; sweep++) {
    const side = sweep % 2;
    for (const items of side ? [...columns].reverse() : columns) {
      for (const item of items) {
        if (item.near[side].length) item.order = mean(item.near[side].map(other => other.place));
        else item.order = item.place ?? items.indexOf(item);
      }
      items.sort((a, b) => a.order - b.order);
      items.forEach((item, place) => { item.place = place; });
    }
  }
}

/** Puts the items of a column as near as can be to the wished heights, in their order and with gaps. */
function place(items, wished) {
  let at = 0;
  const least = items.map((item, k) => at += k ? (items[k - 1].high + item.high) / 2 + NODE.gap : 0), blocks = [];
  items.forEach((_, k) => {
    let block = { sum: wished[k] - least[k], count: 1 };
    while (blocks.length && blocks.at(-1).sum / blocks.at(-1).count > block.sum / block.count) {
      const last = blocks.pop();
      block = { sum: block.sum + last.sum, count: block.count + last.count };
    }
    blocks.push(block);
  });
  const shifts = blocks.flatMap(({ sum, count }) => new Array(count).fill(sum / count));
  items.forEach((item, k) => { item.y = shifts[k] + least[k]; });
}

/** Lays a part out below a height; returns where it ends. */
function layPart(columns, top) {
  sortColumns(columns);
  for (const items of columns) place(items, items.map(() => 0));
  for (let sweep = 0; sweep < SWEEPS; sweep++) {
    for (const items of sweep % 2 ? [...columns].reverse() : columns) {
      place(items, items.map(item => {
        const near = [...item.near[0], ...item.near[1]];
        return near.length ? mean(near.map(other => other.y)) : item.y;
      }));
    }
  }
  const all = columns.flat(), least = Math.min(...all.map(item => item.y - item.high / 2));
  for (const item of all) {
    item.x = item.column * (NODE.wide + NODE.between);
    item.y += top - least;
  }
  return Math.max(...all.map(item => item.y + item.high / 2));
}

/** A graph laid out: its nodes, the ways of its pairs, its size, its critical chain, and how much is left out. */
function laidGraph(rows) {
  const whole = pairsAmong(rows), chain = criticalChain(whole);
  const graph = pairsAmong(nearest(whole, chain)), nodes = new Map(), ways = [];
  let wide = 0, foot = 0, pairCount = 0;
  for (const part of partsOf(graph, chain)) {
    const pairs = part.flatMap(i => graph.ins(i).map(k => [k, i]));
    const { columns, items } = itemsOf(part, graph, pairs.slice(0, Math.max(0, MOST_PAIRS - pairCount)));
    pairCount += pairs.length;
    foot = layPart(columns, foot && foot + NODE.apart);
    wide = Math.max(wide, columns.length * (NODE.wide + NODE.between) - NODE.between);
    for (const [i, item] of items) {
      nodes.set(i, item);
      ways.push(...item.ways || []);
    }
  }
  return { nodes, ways, wide, high: foot, chain, count: whole.nodes.length, pairCount };
}

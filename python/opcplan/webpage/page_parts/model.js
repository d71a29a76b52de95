'use strict';
// The plan as columns of rows, which are known by their place, and what waits for what.
const DAY = 1440;
const late = new Set(), risk = new Set();
let roots = new Int32Array(0), D, rowCount, serial, ia, due, before, after, perApp, bySerial;

/** A list for each of many small numbers. */
function lists() {
  const held = [];
  return {
    get: k => held[k],
    put(k, value) { if (held[k]) held[k].push(value); else held[k] = [value]; },
  };
}

/** The root of each row that waits, as a map has it. */
const rootOf = {
  get: i => roots[i] >= 0 ? roots[i] : undefined,
  has: i => roots[i] >= 0,
  *[Symbol.iterator]() { for (let i = 0; i < rowCount; i++) if (roots[i] >= 0) yield [i, roots[i]]; },
  keys: () => Array.from(rootOf, ([i]) => i),
};

function put(map, key, value) {
  const list = map.get(key);
  if (list) list.push(value); else map.set(key, [value]);
}

/** Reads packed lists of rows: the step from the row before, how many, and how far back each is. */
function eachOfRun(flat, take) {
  for (let k = 0, row = 0; k < flat.length;) {
    row += flat[k++];
    for (let left = flat[k++]; left--;) take(row, row - flat[k++]);
  }
}

/** Takes the plan's data, from which all else is drawn. */
function take(data) {
  D = data;
  rowCount = D.state.length;
  [serial, ia, due] = [0, 0, 0].map(() => new Int32Array(rowCount));
  [before, after, perApp] = [lists(), lists(), lists()];
  bySerial = null;
  late.clear();
  risk.clear();
  roots = new Int32Array(rowCount).fill(-1);
  for (let i = 0, at = 0, number = 0; i < rowCount; i++) {
    serial[i] = number += D.rows.serial[i];
    ia[i] = at += D.rows.arrival[i];
    due[i] = at + D.rows.due[i];
    perApp.put(D.rows.app[i], i);
    if (D.marks[i] === 'l') late.add(i);
    if (D.marks[i] === 'r') risk.add(i);
  }
  eachOfRun(D.rows.pairs, (row, other) => {
    before.put(row, other);
    after.put(other, row);
  });
  eachOfRun(D.rows.roots, (row, root) => { roots[row] = root; });
}
take(JSON.parse(document.getElementById('data').textContent));

/** The row of a serial, if the page has it. */
function rowOfSerial(number) {
  bySerial ??= new Map(Array.from(serial, (one, i) => [one, i]));
  return bySerial.get(number);
}

const app = i => D.rows.app[i];
const name = i => D.apps[app(i)][0];
const state = i => D.state[i];
const isOpen = i => 'ESRBF'.includes(state(i));
const isGone = i => 'Dowp'.includes(state(i));
const isTrouble = i => state(i) === 'E' || late.has(i) || risk.has(i);
const byHand = i => D.rows.cycle[i] < 0;
const openBefore = i => (before.get(i) || []).filter(isOpen);
const dayOf = minute => Math.floor(minute / DAY);

/** When a row that was added by hand is usually due, or null: by the run cycle whose time is nearest to its arrival, as
 * rules/usual_due.py has it. */
function usualDue(i) {
  const day = dayOf(ia[i]), found = [];
  for (const [, kind, , , , time, days, minute, begins, ends] of D.apps[app(i)][3]) {
    const isEver = begins <= day && (ends === null || day < ends && ends !== begins + 1);
    if (kind === 'X' || minute === null || !isEver) continue;
    for (const one of [day - 1, day, day + 1])
      found.push([Math.abs(one * DAY + time - ia[i]), (one + days) * DAY + minute]);
  }
  found.sort((one, other) => one[0] - other[0] || one[1] - other[1]);
  return found.length ? found[0][1] : null;
}

const lastShown = i => late.has(i) ? Math.max(D.now, ia[i] + 1) : Math.max(due[i], ia[i] + 1);

const MOST_WALKED = 3000;

/** All rows that are reached by steps; beyond the first step only those that aren't complete. */
function walk(i, steps, most = MOST_WALKED) {
  const seen = new Set(), left = [i];
  while (left.length && seen.size < most) {
    const here = left.pop();
    for (const other of steps.get(here) || []) {
      if (seen.has(other) || here !== i && !isOpen(other)) continue;
      seen.add(other);
      left.push(other);
    }
  }
  return seen;
}

const chainOf = i => new Set([i, ...walk(i, before, Infinity), ...walk(i, after, Infinity)]);
const behind = i => [...walk(i, after)].filter(isOpen);

/** How many roots a row has besides the worst one; -1 for very many. */
function otherRoots(i) {
  const found = walk(i, before);
  if (found.size >= MOST_WALKED) return -1;
  return [...found].filter(k => isOpen(k) && k !== rootOf.get(i) && !openBefore(k).length).length;
}

/** What each filter of the day selects. Those of the tiles select from the whole current plan. */
const KINDS = {
  all: () => true,
  open: i => isOpen(i) || state(i) === 'L',
  trouble: isTrouble,
  error: i => state(i) === 'E',
  late: i => late.has(i),
  risk: i => risk.has(i),
  hour: i => isOpen(i) && due[i] >= D.now && due[i] <= D.now + 60,
  started: i => state(i) === 'S',
  ready: i => state(i) === 'R',
};
const OF_TILES = ['error', 'late', 'risk', 'hour', 'started', 'ready'];

/** What is chosen: the day's window, its filter, the words of the search, the row, how much is drawn; and in `other`,
 * what draws another part's card. */
const view = { from: 0, kind: 'open', find: [], kept: 'open', pick: -1, most: 400, month: null, apps: 110,
  opened: new Set(), whole: new Set(), app: -1, other: null, reveal: false, arrows: true, graph: false, help: false };
const isFiltered = () => view.find.length > 0;
const matches = text => !isFiltered() || view.find.some(word => text.includes(word));
const isWanted = i => matches(name(i));
const nowWindow = () => Math.floor((D.now - DAY / 2) / 60) * 60;
view.from = nowWindow();

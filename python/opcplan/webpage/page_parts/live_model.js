// What follows from the rows' statuses at a moment: states, what is late, roots, what is at risk.
const ROOT_RANK = { E: 0, S: 1, R: 2, B: 3, F: 4 };

/** Gives a row of the current plan another status; `settle` finds whether a waiting row is ready.  */
function setStatus(i, status) {
  if (typeof D.state === 'string') D.state = Array.from(D.state);
  D.state[i] = status === 'W' ? 'R' : status;
}

/** Finds what follows from the statuses at a moment: states, what is late, roots, what is at risk. It goes through all
 *  rows in arrays of numbers, because a plan may have 200,000. */
function settle(now) {
  D.now = now;
  if (typeof D.state === 'string') D.state = Array.from(D.state);
  const open = new Uint8Array(rowCount), left = new Int32Array(rowCount);
  late.clear();
  risk.clear();
  roots.fill(-1);
  for (let i = 0; i < rowCount; i++) {
    if (!isOpen(i)) continue;
    open[i] = 1;
    if (due[i] < now) late.add(i);
  }
  for (let i = 0; i < rowCount; i++) {
    if (!open[i] || D.state[i] === 'E' || D.state[i] === 'S') continue;
    for (const k of before.get(i) || []) left[i] += open[k];
    D.state[i] = ia[i] > now ? 'F' : left[i] ? 'B' : 'R';
  }
  const waits = left.map(number => number > 0);
  findRoots(open, waits, left);
  for (let i = 0; i < rowCount; i++) {
    if (roots[i] >= 0 && !late.has(i) && (D.state[roots[i]] === 'E' || late.has(roots[i]))) risk.add(i);
  }
}

/** Gives each waiting row the worst of its roots: first those in error, then those started, then by deadline. */
function findRoots(open, waits, left) {
  const rank = i => ROOT_RANK[D.state[i]];
  const isWorse = (a, b) => (rank(a) - rank(b) || due[a] - due[b] || a - b) < 0;
  const done = [];
  for (let i = 0; i < rowCount; i++) {
    if (open[i] && !waits[i] && (after.get(i) || []).some(k => waits[k])) done.push(i);
  }
  while (done.length) {
    const i = done.pop(), root = roots[i] < 0 ? i : roots[i];
    for (const later of after.get(i) || []) {
      if (!waits[later]) continue;
      if (roots[later] < 0 || root !== roots[later] && isWorse(root, roots[later])) roots[later] = root;
      if (!--left[later]) done.push(later);
    }
  }
}

/** The title of the tab, which says how bad it is. */
function titleNow() {
  let errors = 0;
  for (let i = 0; i < rowCount; i++) errors += state(i) === 'E';
  return errors + ' in error, ' + late.size + ' late: ' + D.file + ' ' + isoDay(dayOf(D.now)) + ' ' + clock(D.now);
}

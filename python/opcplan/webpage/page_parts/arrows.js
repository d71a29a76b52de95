// The arrows of the day, in one picture over its rows: all of them faintly, and strongly those of the row in focus.
const MOST_ARROWS = 400;
const laid = { box: null, lineOf: new Map(), buttons: new Map(), folds: new Map(), picked: null, note: null };

/** Lays the picture over the rows, with the line of now. */
function layArrows(box, drawn) {
  const note = h('p', { class: 'note-below quiet' });
  Object.assign(laid, { box, lineOf: new Map(), buttons: new Map(), folds: new Map(), note });
  laid.picked = s('g', { class: 'pairs' });
  $('#lines .pane').append(note);
  const rows = [...box.querySelectorAll('.row')];
  drawn.forEach((line, n) => {
    if (typeof line !== 'number') return line.key.startsWith('runs ') && foldArrows(line, n, rows[n]);
    laid.lineOf.set(line, n);
    laid.buttons.set(line, rows[n]);
  });
  const isNow = D.now >= view.from && D.now < view.from + DAY, x = share(D.now) + '%';
  box.append(h('li', { class: 'overlay', 'aria-hidden': 'true' }, s('svg', {},
    s('g', { class: 'pairs all' }, allArrows()), laid.picked,
    isNow ? s('line', { class: 'now', x1: x, x2: x, y1: '0', y2: '100%' }) : '')));
}

/** Leads the arrows of folded runs to their line. */
function foldArrows({ key, rows }, n, button) {
  if (view.opened.has(key)) return;
  for (const i of rows) {
    laid.lineOf.set(i, n);
    laid.folds.set(i, button);
  }
}

const isArrow = (row, successor) => laid.lineOf.has(row) && laid.lineOf.has(successor) &&
  laid.lineOf.get(row) !== laid.lineOf.get(successor);

function allArrows() {
  const pairs = [];
  if (!view.arrows) return pairs;
  for (const successor of laid.lineOf.keys()) {
    for (const row of before.get(successor) || []) if (isArrow(row, successor)) pairs.push([row, successor]);
  }
  if (pairs.length <= MOST_ARROWS) return pairs.map(([row, successor]) => arrow(row, successor));
  laid.note.textContent = 'There are ' + pairs.length + ' arrows, too many to draw. Point at a row to see its arrows.';
  return [];
}

/** An elbow from the left edge of one box to that of another; lines are counted in heights of a row. */
function arrow(row, successor, look) {
  const down = laid.lineOf.get(successor) > laid.lineOf.get(row) ? 1 : -1;
  const from = Math.max(share(ia[row]), 0) + '%', to = Math.max(share(ia[successor]), share(ia[row]) + .9, .9) + '%';
  const top = laid.lineOf.get(row) + .5 + .3 * down + 'em', foot = laid.lineOf.get(successor) + .5 + 'em';
  return s('g', { class: look },
    s('line', { x1: from, x2: from, y1: top, y2: foot }),
    s('line', { x1: from, x2: to, y1: foot, y2: foot }),
    s('svg', { x: to, y: foot, class: 'head' }, s('path', { d: 'M0 0l-6 -3.5v7z' })));
}

/** Shows the arrows of a row, and marks the rows of its chain. */
function showArrows(i) {
  if (view.graph) return showNode(i);
  for (const button of [...laid.buttons.values(), ...laid.folds.values()]) button.classList.remove('on', 'up', 'down');
  laid.picked.replaceChildren();
  if (i < 0 || !laid.buttons.has(i)) return;
  const up = walk(i, before), down = walk(i, after), chain = new Set([i, ...up, ...down]);
  laid.buttons.get(i).classList.add('on');
  const buttonOf = row => laid.buttons.get(row) || laid.folds.get(row);
  for (const row of up) buttonOf(row)?.classList.add('up');
  for (const row of down) buttonOf(row)?.classList.add('down');
  const drawn = [];
  for (const successor of chain) {
    for (const row of before.get(successor) || []) {
      if (!chain.has(row) || !isArrow(row, successor)) continue;
      drawn.push([row, successor, row === i || successor === i ? 'own' : 'far']);
    }
  }
  drawn.sort((a, b) => (a[2] === 'own') - (b[2] === 'own'));
  laid.picked.replaceChildren(...drawn.slice(-MOST_ARROWS).map(one => arrow(...one)));
  const text = MOST_ARROWS + ' of the ' + drawn.length + ' arrows of its chain are drawn.';
  if (drawn.length > MOST_ARROWS) laid.note.textContent = text;
}

/** Highlights the chosen row's chain, and dims the other rows. */
function markChosen() {
  const isThere = view.pick >= 0 && laid.buttons.has(view.pick);
  laid.box?.classList.toggle('dim', isThere);
  if (isThere) {
    laid.box.querySelector('[tabindex="0"]')?.setAttribute('tabindex', '-1');
    laid.buttons.get(view.pick).setAttribute('tabindex', '0');
  }
  markCurrent('#lines [data-i]', view.pick);
  showArrows(view.pick);
}

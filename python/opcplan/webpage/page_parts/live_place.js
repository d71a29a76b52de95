// Drawing again while somebody reads: what is seen, opened, chosen and in focus stays.
const BOXES = ['#sum', '#needs', '#next', '#daytools', '#lines', '#monthtools', '#grid', '#changed',
  '#card'];
const SEEN = '.go[data-i], .row[data-i], .row.group, tbody button[data-a], #now h3, section > .bar, #changed h3';

/** The name of an element within its box, which another drawing of the same or a later plan keeps. */
function markOf(element) {
  const { key, i, a, d } = element.dataset;
  if (key !== undefined) return 'key ' + key;
  if (i !== undefined) return 'row ' + serial[i];
  if (a !== undefined) return 'app ' + D.apps[a][0] + ' ' + (d ?? '');
  return element.id ? 'id ' + element.id : element.tagName + ' ' + element.textContent;
}

const boxOf = element => BOXES.find(box => $(box).contains(element));
const within = (box, mark, selector) => [...$(box).querySelectorAll(selector)].find(one => markOf(one) === mark);
const FOCUSABLE = 'button, summary, input, select, [tabindex]';

/** Notes the focus; returns a function that gives it back to the same element, or to the one in its place then. */
function focusPlace() {
  const element = document.activeElement, box = boxOf(element);
  if (!box || element === $(box)) return () => {};
  const isMarked = element.tagName !== 'SUMMARY', mark = markOf(isMarked ? element : element.parentElement);
  const peers = element.matches('.row, .node') ? '.row, .node' : element.matches('.go') ? '.go' : FOCUSABLE;
  const number = [...$(box).querySelectorAll(peers)].indexOf(element);
  return () => {
    if (element.isConnected && document.activeElement === element) return;
    const same = within(box, mark, isMarked ? FOCUSABLE : 'details');
    const others = [...$(box).querySelectorAll(peers)].filter(one => !one.disabled);
    const found = (isMarked ? same : same?.querySelector('summary')) || others[Math.min(number, others.length - 1)];
    if (found?.matches('.row, .node')) $(box).querySelector('[tabindex="0"]')?.setAttribute('tabindex', '-1');
    if (found?.matches('.row, .node')) found.setAttribute('tabindex', '0');
    (found || (box === '#card' ? $('#card') : null))?.focus({ preventScroll: true });
  };
}

/** Notes the first element in sight below the top, and its height; returns a function that scrolls back to it. */
function readingPlace() {
  const top = innerWidth > 760 ? $('header').offsetHeight : 0;
  if (scrollY < 2) return () => {};
  for (const element of document.querySelectorAll(SEEN)) {
    const { top: y, bottom } = element.getBoundingClientRect();
    if (bottom <= top || !element.getClientRects().length) continue;
    const box = boxOf(element), mark = markOf(element);
    return () => {
      const now = element.isConnected ? element : box && within(box, mark, SEEN);
      if (now) scrollBy({ top: now.getBoundingClientRect().top - y, behavior: 'instant' });
    };
  }
  return () => {};
}

/** Notes the scroll positions within boxes and the opened parts; returns a function that restores them. */
function innerPlaces() {
  const scrolled = ['#grid .pane', '#lines .room', '#card'].filter($).map(one => [one, $(one).scrollLeft,
    $(one).scrollTop]);
  const opened = new Map(BOXES.map(box => [box, [...$(box).querySelectorAll('details')]
    .map((one, n) => one.open ? one.dataset.key || n : null).filter(one => one !== null)]));
  return () => {
    for (const [box, keys] of opened) {
      [...$(box).querySelectorAll('details')].forEach((one, n) => {
        if (keys.includes(one.dataset.key || n) && !one.open) {
          one.drawLines?.();
          one.open = true;
        }
      });
    }
    for (const [one, x, y] of scrolled) $(one)?.scrollTo({ left: x, top: y, behavior: 'instant' });
  };
}

const isSame = (one, other) => one.childNodes.length === other.childNodes.length &&
  [...one.childNodes].every((node, n) => node.isEqualNode(other.childNodes[n]));

/** Draws boxes again, but leaves those in which nothing changed, so that a text selection in them stays. */
function redraw(boxes, draw, isNew) {
  const old = boxes.map(box => {
    const was = $(box), spare = was.cloneNode(false);
    was.removeAttribute('id');
    was.after(spare);
    return [box, was, spare];
  });
  try {
    draw();
    for (const [, was, spare] of old) {
      if (isNew || !isSame(was, spare)) was.replaceChildren(...spare.childNodes);
      Object.assign(was, { className: spare.className, hidden: spare.hidden });
    }
  } finally {
    for (const [box, was, spare] of old) {
      spare.remove();
      was.id = box.slice(1);
    }
  }
}

/** What other parts draw again after a change: the name of a box, and what draws it. */
const alsoDrawn = [];

/** Draws all again, after a change; `isNew` if it replaces the rows by others. */
function drawAll(change, isNew) {
  const [focus, reading, inner] = [focusPlace(), readingPlace(), innerPlaces()];
  const isAtNow = view.from === nowWindow(), { now } = D;
  change();
  if (isAtNow) view.from = nowWindow();
  if (isNew || D.now !== now) drawTopAnew();
  titleOfAll = titleNow();
  nameTab();
  redraw(['#sum', '#needs', '#next'], drawNow, isNew);
  redraw(['#daytools'], drawDay, isNew);
  redraw(['#monthtools', '#grid'], () => drawMonth(true), isNew);
  redraw(['#changed'], drawChanges, isNew);
  redraw(['#card'], showCard);
  for (const [box, draw] of alsoDrawn) redraw([box], draw);
  markCurrent('.go', view.pick);
  inner();
  focus();
  reading();
}

function drawTopAnew() {
  $('#names').replaceChildren();
  for (const part of ['#next', '#day']) $(part).hidden = false;
  drawTop();
}

/** Takes new rows, and keeps what is chosen, by its name. */
function takeRows(data) {
  const picked = serial[view.pick], app = D.apps[view.app]?.[0], month = months[view.month];
  take(data);
  view.pick = rowOfSerial(picked) ?? -1;
  view.app = D.apps.findIndex(one => one[0] === app);
  if (view.pick < 0 && view.kind === 'chain') view.kind = 'open';
  months = firstDays();
  view.month = month === undefined ? null : Math.max(0, months.findLastIndex(day => day <= month));
}

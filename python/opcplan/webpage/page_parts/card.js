// The card: one occurrence or one application.
const RULES = { E: 'only work days are counted', 1: 'a free day moves to the work day before',
  2: 'a free day moves to the work day after', 3: 'on free days too', 4: 'not on free days' };
const MOST_IN_TREE = 80;
/** What other parts put into the card of a row, above its times. */
const inCard = [];
/** What other parts do with a text of the search on Enter: whether they take it. */
const onFind = [];

/** A row as a button that chooses it. */
function link(i, more, isDue) {
  const text = [isDue ? late.has(i) ? lateness(i) : 'due ' + soon(due[i]) : '', more].filter(Boolean).join(', ');
  return h('button', { 'data-i': i, title: times(i), on: () => choose(i) }, badge(i), h('span', {}, rowName(i)),
    h('small', { class: isDue ? tone(i) : '' }, text));
}

/** What is reached from a row and isn't complete, as a tree; a row that is above already isn't opened again. */
function tree(i, steps, seen, left) {
  const rows = (steps.get(i) || []).filter(isOpen);
  if (!rows.length) return null;
  return h('ul', { class: 'tree' }, rows.map(k => {
    if (left.rows-- <= 0) return null;
    const isAbove = seen.has(k);
    seen.add(k);
    return h('li', {}, link(k, isAbove ? 'shown above' : '', true), isAbove ? '' : tree(k, steps, seen, left));
  }));
}

/** The tree of a row and how many rows it leaves out, or the text `nothing` if there is none. */
function wholeTree(i, steps, nothing) {
  const seen = new Set([i]), drawn = tree(i, steps, seen, { rows: MOST_IN_TREE });
  if (!drawn) return h('p', { class: 'quiet' }, nothing);
  const all = [...walk(i, steps)].filter(isOpen).length;
  return [drawn, all >= seen.size ? h('p', { class: 'quiet' }, rest(all, seen.size - 1)) : ''];
}

const links = (title, rows, most) => rows.length
  ? h('details', {}, h('summary', { class: 'quiet' }, rows.length + ' ' + title),
    h('ul', { class: 'tree' }, rows.slice(0, most).map(i => h('li', {}, link(i))), restLine(rows.length, most)))
  : '';

/** Notes for a row whose predecessor of the same day arrives later: it waits for an earlier one, which may surprise. */
function goesByEarlier(i) {
  const told = (before.get(i) || []).map(k => {
    const next = perApp.get(app(k)).find(j => ia[j] > ia[i] && !isGone(j));
    const isSurprise = dayOf(ia[k]) < dayOf(ia[i]) && next !== undefined && dayOf(ia[next]) === dayOf(ia[i]);
    if (!isSurprise || app(k) === app(i)) return '';
    return h('p', { class: 'quiet' }, 'Its predecessor is ' + name(k) + ' of ' + dayName(ia[k]) + ': that of ' +
      dayName(ia[next]) + ' arrives later than this, at ' + clock(ia[next]) + '.');
  }).filter(Boolean);
  const more = rest(told.length, 4, ' of this kind');
  return [...told.slice(0, 4), more ? h('p', { class: 'quiet' }, more) : ''];
}

const pair = (term, ...text) => [h('dt', {}, term), h('dd', {}, text)];
const close = () => tool('close', 'Close', shut, { class: 'shut', 'aria-label': 'Close (Escape)' });

function dueNote(i) {
  if (due[i] < ia[i]) return ' (before it arrives)';
  if (!byHand(i)) return '';
  const usual = usualDue(i);
  const more = usual === null ? '' : '; it is usually due ' +
    (dayOf(usual) === dayOf(ia[i]) ? '' : dayName(usual) + ' ') + clock(usual);
  return ' (a day after it arrives, as for all that are added by hand' + more + ')';
}

function drawCard(i) {
  const done = (before.get(i) || []).filter(k => !isOpen(k)), next = (after.get(i) || []).filter(k => !isOpen(k));
  const more = late.has(i) ? ', ' + lateness(i) : risk.has(i) ? ', at risk' : '';
  const [first, ...others] = why(i), reason = asNodes([capital(first), ...others]);
  fill('#card', close(), h('h2', {}, badge(i), h('span', {}, name(i), ' ', h('span', { class: 'quiet' }, soon(ia[i])))),
    h('p', { class: tone(i) }, capital(WORD[state(i)]) + more),
    'BFR'.includes(state(i)) ? h('p', {}, reason, '.') : '',
    inCard.map(part => part(i)),
    h('dl', {}, pair('Arrives', dayName(ia[i]) + ' ' + clock(ia[i])),
      pair('Due', dayName(due[i]) + ' ' + clock(due[i]), dueNote(i)),
      pair('Run cycle', byHand(i) ? 'added by hand' : D.cycles[D.rows.cycle[i]]),
      pair('Serial', String(serial[i])), runPairs(i),
      pair('In a stream', h('code', {}, '--app ' + name(i)), ' ',
        h('code', {}, '--ia ' + isoDay(dayOf(ia[i])) + '/' + clock(ia[i])))),
    h('h3', {}, 'Waits for'), wholeTree(i, before, done.length ? 'nothing that isn’t complete' : 'nothing'),
    links('complete', done, 100), goesByEarlier(i),
    h('h3', {}, 'Waits for it'), wholeTree(i, after, 'nothing in the current plan'),
    links('planned or complete', next, 100),
    h('p', { class: 'foot' }, h('button', { class: 'in', 'data-a': app(i), on: () => showApp(app(i)) },
      'All of ' + name(i))));
}

const SIGNS = [['E', 'in error'], ['S', 'started'], ['R', 'ready: arrived, nothing in its way'],
  ['B', 'blocked by what it waits for'], ['F', 'waits for its time, which is to come'],
  ['C', 'complete'], ['H', 'complete, in history'],
  ['L', 'planned, not yet in the current plan'], ['D', 'deleted or withdrawn']];
const KEYS = [['/', 'find an application'], ['↑ ↓', 'rows of the day, cells of the month'],
  ['← →', 'twelve hours back or forward'], ['n', 'now'], ['t', 'next in trouble: first in error, then late'],
  ['g', 'the day as rows or as a graph'], ['?', 'signs and keys'],
  ['Enter', 'choose; once more: its card'], ['Esc', 'close']];

function drawLegend() {
  fill('#card', close(), h('h2', {}, 'Signs and keys'),
    h('p', { class: 'quiet' }, 'Choose a row: its card shows what it waits for, down to the root, and what waits ' +
      'for it.'),
    h('h3', {}, 'Signs'), h('ul', { class: 'signs' }, SIGNS.map(([key, text]) =>
      h('li', {}, sign(key), text))),
    h('p', { class: 'quiet' }, 'A box goes from input arrival to deadline; a line after it says how late it is. ' +
      'In the lists of opcplan R, B and W are one status, W.'),
    h('h3', {}, 'Keys'), h('ul', { class: 'signs' }, KEYS.map(([key, text]) => h('li', {}, h('kbd', {}, key), text))));
}

/** Puts the row into the address of the page. */
function address(i) {
  try {
    history.replaceState(null, '', i >= 0 ? '#o' + serial[i] : '#');
  } catch {
    say('');
  }
}

/** Draws the card: the chosen row or application, else the signs and keys if they are opened. */
function showCard() {
  const isChosen = view.pick >= 0 || view.app >= 0 || view.other !== null, isOpened = isChosen || view.help;
  document.body.classList.toggle('chosen', isOpened);
  $('#card').classList.toggle('idle', !isOpened);
  $('#help').setAttribute('aria-expanded', String(view.help && !isChosen));
  if (view.app >= 0) drawApp(view.app);
  else if (view.pick >= 0) drawCard(view.pick);
  else if (view.other) view.other();
  else if (view.help) drawLegend();
  else fill('#card');
}

/** Closes the card; the focus goes back to what opened it. */
function shut() {
  const isHelp = view.help && view.pick < 0 && view.app < 0 && !view.other;
  if (isHelp) showHelp(false); else choose(-1);
}

/** Shows or hides the signs and keys. */
function showHelp(isShown) {
  if (view.pick >= 0 || view.app >= 0 || view.other) choose(-1);
  view.help = isShown;
  showCard();
  (isShown ? $('#card') : $('#help')).focus({ preventScroll: true });
}

/** Draws, and keeps the element with the focus at its height on the screen. */
function keepHeight(draw) {
  const active = () => document.activeElement, height = () => active().getBoundingClientRect().top;
  const mark = () => active().dataset.i ?? active().id, [old, name] = [height(), mark()];
  draw();
  if (name && mark() === name && height() !== old) scrollBy({ top: height() - old, behavior: 'instant' });
}

/** Chooses a row, or none. */
function choose(i, isQuiet) {
  const old = view.pick;
  Object.assign(view, { pick: i, app: -1, other: null, help: i < 0 && view.help && old < 0 });
  if (i < 0 && view.kind === 'chain') view.kind = 'open';
  if (i >= 0 && view.kind !== 'chain' && !KINDS[view.kind](i)) view.kind = 'all';
  view.reveal = true;
  const isDrawn = view.graph && laid.buttons.has(i);
  if (i >= 0 && isOutside(i) && !isDrawn) view.from = dayOf(ia[i]) * DAY;
  if (!isQuiet) address(i);
  const isInCard = $('#card').contains(document.activeElement);
  keepHeight(() => {
    showCard();
    keepFocus(drawDay);
  });
  $('#card').scrollTop = 0;
  if (isInCard && i >= 0) $('#card').focus({ preventScroll: true });
  if (isInCard && i < 0) (laid.buttons.get(old) || $('.row, .node'))?.focus();
  markCurrent('.go', i);
  if (i >= 0) say(rowName(i) + ': ' + asText(why(i)));
}

// Several rows of the day, chosen by keys or by the pointer, and the bar with what can be done with all of them.
// The rows are a treegrid: the arrows move, Space chooses, Shift with an arrow chooses on, Ctrl+A all that are shown.
const MOST_CHOSEN = 200;
const SEVERAL = [
  { text: 'Reset', verb: 'reset', fits: i => allows('reset', i) },
  { text: 'Start', verb: 'start', fits: i => allows('start', i) },
  { text: 'Fail', verb: 'fail', fits: i => allows('fail', i) },
  { text: 'Rerun', verb: 'rerun', fits: i => 'ECH'.includes(statusOfRow(i)) },
  { text: 'Rerun with followers', verb: 'rerun', more: { followers: true }, fits: i => 'ECH'.includes(statusOfRow(i)) },
  { text: 'Move to', verb: 'move', fits: i => 'WEL'.includes(statusOfRow(i)) },
  { text: 'Complete', verb: 'complete', isFinal: true, fits: i => allows('complete', i) },
  { text: 'Complete with all before them', verb: 'complete', more: { chain: true }, isFinal: true,
    fits: i => 'WSE'.includes(statusOfRow(i)) },
  { text: 'Cancel', verb: 'cancel', isFinal: true, fits: i => 'WEL'.includes(statusOfRow(i)) },
];
/** The serials that are chosen; where a choice with Shift begins; what the bar shows. */
const several = { serials: new Set(), anchor: -1, shown: null };
const BAR = 'several';

const isMarked = i => several.serials.has(serial[i]);
const markedRows = () => [...several.serials].map(rowOfSerial).filter(i => i !== undefined)
  .sort((a, b) => ia[a] - ia[b] || a - b);

/** The rows of a line of the day: of one row itself, of a group all that are in it. */
const rowsOfLine = line => typeof line === 'number' ? [line] : line.rows;
let drawnLines = [];  // the lines that are drawn, in order

/** Gives the lines of the day what choosing needs: their roles, and a box to tick each. */
function dressLines(box, drawn) {
  drawnLines = drawn;
  const attributes = { role: 'treegrid', 'aria-multiselectable': 'true', 'aria-label': 'Rows of the day' };
  for (const [key, value] of Object.entries(attributes)) box.setAttribute(key, value);
  box.classList.add('choosing');
  [...box.querySelectorAll('.row')].forEach((button, n) => {
    const line = drawn[n], isRow = typeof line === 'number', item = button.parentElement;
    const label = 'Choose ' + (isRow ? rowName(line) : many(line.rows.length, 'row') + ' of ' + line.title);
    item.setAttribute('role', 'row');
    button.setAttribute('role', 'gridcell');
    item.prepend(h('span', { class: 'tick', role: 'gridcell' }, h('input', { type: 'checkbox', tabindex: -1,
      'data-n': n, 'aria-label': label })));
  });
  box.querySelector('.overlay')?.setAttribute('role', 'presentation');
  markLines();
}
if (may('operate')) onLines.push(dressLines);

/** Ticks the lines whose rows are chosen. */
function markLines() {
  const box = $('#lines .rows');
  if (!box?.matches('.choosing')) return;
  [...box.querySelectorAll('.tick input')].forEach(tick => {
    const rows = rowsOfLine(drawnLines[+tick.dataset.n]), count = rows.filter(isMarked).length;
    const item = tick.closest('li'), isAll = count === rows.length;
    Object.assign(tick, { checked: isAll, indeterminate: count > 0 && !isAll });
    for (const one of [item, item.querySelector('.row')]) one.setAttribute('aria-selected', String(isAll));
    item.classList.toggle('marked', isAll);
  });
}

/** Chooses rows besides those that are chosen, or no longer; what the bar shows of another choice goes. */
function mark(rows, isOn) {
  const old = several.serials.size;
  for (const i of rows) several.serials[isOn ? 'add' : 'delete'](serial[i]);
  if (several.shown && !several.shown.busy && !several.shown.progress?.isBegun) several.shown = null;
  const focus = focusPlace();
  markLines();
  redraw(['#several'], drawBar);
  focus();
  const count = several.serials.size;
  if (count !== old) say(count ? many(count, 'row') + ' chosen' : 'No row is chosen.');
}

const toggle = n => mark(rowsOfLine(drawnLines[n]), !rowsOfLine(drawnLines[n]).every(isMarked));

/** Chooses the lines between the one where the choice began and another one. */
function markTo(n) {
  const from = drawnLines.findIndex(line => keyOfLine(line) === several.anchor), first = from < 0 ? n : from;
  const part = drawnLines.slice(Math.min(first, n), Math.max(first, n) + 1);
  mark(part.flatMap(rowsOfLine), true);
}

const keyOfLine = line => typeof line === 'number' ? serial[line] : line.key;
const numberOf = row => [...document.querySelectorAll('#lines .row')].indexOf(row);

/** Keys in the lines of the day. The arrows move as without Shift. */
function onLineKey(event) {
  const row = event.target.closest?.('.row'), tick = event.target.closest?.('.tick');
  const isWith = event.ctrlKey || event.metaKey, n = row ? numberOf(row) : -1;
  if (isWith && event.key.toLowerCase() === 'a' && (row || tick)) {
    event.preventDefault();
    const all = drawnLines.flatMap(rowsOfLine);
    return mark(all, !all.every(isMarked));
  }
  if (!row || isWith || event.altKey) return;
  const step = { ArrowDown: 1, ArrowUp: -1 }[event.key];
  if (event.key === ' ') {
    event.preventDefault();
    if (event.shiftKey) return markTo(n);
    several.anchor = keyOfLine(drawnLines[n]);
    toggle(n);
  } else if (step && event.shiftKey && drawnLines[n + step] !== undefined) {
    if (several.anchor === -1 || !rowsOfLine(drawnLines[n]).every(isMarked)) several.anchor = keyOfLine(drawnLines[n]);
    mark([...rowsOfLine(drawnLines[n]), ...rowsOfLine(drawnLines[n + step])], true);
  }
}

/** The pointer: a click on a box, or with Ctrl on a row, chooses it; with Shift all from the last one on. */
function onLineClick(event) {
  const tick = event.target.closest?.('.tick'), row = event.target.closest?.('.row');
  const isWith = event.ctrlKey || event.metaKey;
  if (!tick && !(row && (isWith || event.shiftKey))) return;
  event.stopPropagation();
  const button = row || tick.parentElement.querySelector('.row'), n = numberOf(button);
  $('#lines [tabindex="0"]')?.setAttribute('tabindex', '-1');
  button.setAttribute('tabindex', '0');
  button.focus({ preventScroll: true });
  if (event.shiftKey) markTo(n);
  else {
    several.anchor = keyOfLine(drawnLines[n]);
    toggle(n);
  }
  if (tick) setTimeout(markLines);  // the browser sets the box itself once the click is over
}

/** The chosen rows by status, as buttons that keep only those. */
function statusParts(rows) {
  const of = new Map();
  for (const i of rows) put(of, state(i), i);
  if (of.size < 2) return rows.length ? h('span', { class: 'quiet' }, WORD[state(rows[0])]) : '';
  return [...of].map(([key, some]) => tool('only ' + key, [sign(key), some.length + ' ' + WORD[key]], () => {
    several.serials = new Set(some.map(i => serial[i]));
    mark([], true);
  }, { class: 'in', 'aria-label': 'Keep only the ' + some.length + ' that are ' + WORD[key] }));
}

/** What can be done with all rows, the way of each: first what can be undone, and apart from it the others. */
function severalButtons(rows, isBusy) {
  const isTooMany = rows.length > MOST_CHOSEN, fitting = SEVERAL.filter(one => rows.every(one.fits));
  const chain = fitting.find(one => one.verb === 'complete' && !one.more);
  const shown = fitting.filter(one => !(chain && one.more?.chain));
  const button = one => tool('all ' + one.text, one.text, () => lookAtAll(rows, one), { 'data-verb': one.verb,
    disabled: isBusy || isTooMany ? '' : undefined });
  const [first, last] = [false, true].map(isFinal => shown.filter(one => !!one.isFinal === isFinal).map(button));
  const isMovable = shown.some(one => one.verb === 'move');
  const told = isTooMany ? 'At most ' + MOST_CHOSEN + ' rows at once: choose fewer.'
    : shown.length ? '' : 'Nothing can be done with all of them at once.';
  return [told ? h('p', { class: 'quiet' }, told) : '',
    h('div', { class: 'buttons' }, first, isMovable ? momentFields(BAR, '', '', 'move them to') : ''),
    last.length ? h('div', { class: 'buttons final', role: 'group', 'aria-labelledby': 'several-final' },
      h('span', { id: 'several-final' }, 'Can’t be undone, or not always'), last) : ''];
}

/** The bar of the chosen rows. */
function drawBar() {
  const rows = markedRows(), { shown } = several, isShown = rows.length > 0 || shown !== null;
  $('#several').hidden = !isShown;
  if (!isShown) return fill('#several');
  return fill('#several', h('div', { class: 'many', role: 'group', 'aria-label': 'Chosen rows', tabindex: -1 },
    h('p', { class: 'chosen-count', tabindex: -1 }, h('b', {}, many(rows.length, 'row') + ' chosen'), ' ',
      statusParts(rows), ' ', tool('clear', 'Choose none', clearAll, { class: 'in' })),
    rows.length ? severalButtons(rows, shown?.busy) : '',
    shown ? shownAct(shown, { id: 'several-preview', onDo: doAll, onLook: lookAtAllLeft, onDrop: dropShown }) : ''));
}
alsoDrawn.push(['#several', drawBar]);

/** Shows what came of a press; the focus goes there from the button that was pressed, so that Enter again does
 *  nothing. */
function tellAll(shown) {
  const isFocused = $('#several').contains(document.activeElement);
  several.shown = shown;
  if (shown.isOver) typed.clear();
  redraw(['#several'], drawBar);
  if (isFocused || document.activeElement === document.body) $('#several-preview')?.focus({ preventScroll: true });
  say([shown.text, ...shown.act && !shown.busy ? shown.act.lines : []].filter(Boolean).join(' '));
}

/** What is wanted of all rows, as the desk is asked, or what is wrong with the fields. */
function wantedOfAll(rows, one) {
  const wanted = { verb: one.verb, each: rows.map(i => String(serial[i])), ...one.more };
  if (one.verb !== 'move') return wanted;
  const found = typedMoments(BAR);
  return found.wrong || found.to ? { ...wanted, ...found } : { wrong: 'Choose a day, a time, or both.' };
}

/** The first press. */
async function lookAtAll(rows, one) {
  const wanted = wantedOfAll(rows, one);
  if (several.shown?.busy) return;
  if (wanted.wrong) return tellAll({ own: BAR, text: wanted.wrong, look: 'is-error' });
  tellAll({ own: BAR, wanted, busy: true, text: WAITING });
  tellAll(await lookedUp(BAR, wanted));
}

/** The second press; what can't be undone needs one more, which the second click of a double one isn't. */
async function doAll(event) {
  const { shown } = several;
  if (shown.busy || event.detail > 1) return;
  if (!shown.act.inverse && !shown.sure) {
    return tellAll({ ...shown, sure: true, look: 'is-late',
      text: 'It can’t be undone: ' + shown.act.why_not.replaceAll('`', '') + '. Press once more to do it.' });
  }
  await doAct(shown, tellAll);
}

async function lookAtAllLeft() {
  const asked = several.shown;
  tellAll({ ...asked, busy: true });
  tellAll(await lookedAtRest(asked));
}

const dropShown = () => tellAll({ own: BAR, text: 'What is left isn’t done.', look: 'is-late' });

function clearAll() {
  Object.assign(several, { serials: new Set(), anchor: -1, shown: null });
  mark([], false);
  say('No row is chosen.');
  ($('#lines [tabindex="0"]') || $('#daytools button'))?.focus({ preventScroll: true });
}

/** Escape in the bar: first what it shows goes, then the choice. */
function onBarKey(event) {
  if (event.key !== 'Escape' || several.shown?.busy) return;
  event.stopPropagation();
  if (!several.shown || several.shown.progress?.isBegun) return clearAll();
  several.shown = null;
  redraw(['#several'], drawBar);
  $('#several .buttons button:not([disabled])')?.focus();
}

/** Adds the bar, and listens. */
function addSeveral() {
  $('main').append(h('section', { id: 'several', 'aria-label': 'Several rows', hidden: '' }));
  BOXES.push('#several');
  $('#several').addEventListener('keydown', onBarKey);
  $('#lines').addEventListener('keydown', onLineKey);
  $('#lines').addEventListener('click', onLineClick, true);
  KEYS.splice(-1, 0, ['Space', 'choose a row with others: Shift+↑ ↓ more of them, Ctrl+A all']);
}
if (may('operate')) addSeveral();

// The day: a row for each occurrence in the order of arrival, with a box from input arrival to deadline.
const KIND_NAMES = { open: 'Not complete', trouble: 'Trouble', all: 'All', chain: 'Its chain' };
const TILE_NAMES = { error: 'In error', late: 'Late', risk: 'At risk', hour: 'Due within the hour', started: 'Started',
  ready: 'Ready' };

const kindName = kind => KIND_NAMES[kind] || TILE_NAMES[kind];

/** The place of a moment in the window, in hundredths; just beyond the edge if it is outside. */
const share = minute => Math.min(Math.max(100 * (minute - view.from) / DAY, -1), 101);

const isOutside = i => ia[i] >= view.from + DAY || lastShown(i) <= view.from;

/** The rows that the filter selects, and how many each filter of the window would select. */
function rowsOfDay() {
  const chain = view.pick >= 0 ? chainOf(view.pick) : new Set();
  const counts = { all: 0, open: 0, trouble: 0, chain: 0 }, rows = [], ofTile = OF_TILES.includes(view.kind);
  for (let i = 0; i < rowCount; i++) {
    if (!isWanted(i)) continue;
    if (ofTile && KINDS[view.kind](i)) rows.push(i);
    if (isOutside(i)) continue;
    for (const kind in counts) {
      if (kind === 'chain' ? !chain.has(i) : !KINDS[kind](i)) continue;
      counts[kind]++;
      if (kind === view.kind) rows.push(i);
    }
  }
  if (ofTile) counts[view.kind] = rows.length;
  return { rows, counts };
}

/** Draws, and gives the focus back to the element that had it. */
function keepFocus(draw) {
  const old = document.activeElement, { key, i } = old?.dataset || {};
  draw();
  if (!old || old.isConnected) return;
  const among = old.matches('.in') ? '#lines .in' : '#lines :is(.row, .node)';
  const same = key ? '[data-key="' + CSS.escape(key) + '"]' : i ? among + '[data-i="' + i + '"]' : '';
  if (same) $(same)?.focus({ preventScroll: true });
}

function tool(key, text, on, more) {
  return h('button', { 'data-key': key, on, ...more }, text);
}

/** A button that does nothing while it is off, and keeps the focus. */
function step(key, text, label, on, isOff) {
  return tool(key, text, isOff ? undefined : on, { 'aria-label': label, 'aria-disabled': isOff ? 'true' : undefined });
}

function drawDayTools(counts) {
  const from = view.from, to = from + DAY, isNow = D.now >= from && D.now < to;
  const kind = key => tool('kind ' + key, kindName(key) + ' ' + counts[key], () => showKind(key),
    { 'aria-pressed': String(view.kind === key) });
  const printed = view.kind === 'chain' ? 'The chain of ' + rowName(view.pick) : kindName(view.kind);
  const middle = isoDay(dayOf(from + DAY / 2));
  const goTo = h('input', { type: 'date', 'aria-label': 'Go to a day', 'data-key': 'go to', value: middle });
  goTo.addEventListener('change', () => {
    if (goTo.value) showFrom(Date.parse(goTo.value + 'T00:00Z') / 60000);
  });
  const isFirst = from <= D.plan.first * DAY, isLast = to >= (D.plan.last + 1) * DAY;
  fill('#daytools',
    h('span', { class: 'set' },
      step('back', '◂ 12 h', 'Twelve hours back', () => showFrom(view.from - DAY / 2), isFirst),
      tool('now', 'Now', showNow, { 'aria-pressed': String(isNow) }),
      step('on', '12 h ▸', 'Twelve hours on', () => showFrom(view.from + DAY / 2), isLast)),
    h('b', {}, dayName(from) + ' ' + clock(from) + ' to ' + dayName(to) + ' ' + clock(to)), goTo,
    h('span', { class: 'break' }),
    h('span', { class: 'set' }, kind('open'), kind('trouble'), kind('all'), view.pick >= 0 ? kind('chain') : '',
      view.kind in TILE_NAMES ? kind(view.kind) : ''),
    h('b', { class: 'printed' }, printed + ': ' + counts[view.kind]),
    h('span', { class: 'set' },
      tool('rows', 'Rows', () => showAsGraph(false), { 'aria-pressed': String(!view.graph) }),
      tool('graph', 'Graph', () => showAsGraph(true), { 'aria-pressed': String(view.graph) })),
    view.graph ? '' : h('span', { class: 'set' }, tool('arrows', 'Arrows', () => {
      view.arrows = !view.arrows;
      keepFocus(drawDay);
    }, { 'aria-pressed': String(view.arrows) })));
}

const isoDay = day => dateOf(day * DAY).toISOString().slice(0, 10);

const AXIS = { most: 840, gap: 8, letter: 7.7, bold: 8.6, padding: 10 };  // in pixels; on paper there are so many

/** The texts of the axis that don't run into one another: now, then the days, which move to the side of now, then
 *  hours. Each is a moment, a text, its look, and by which part of it it stands at the moment. */
function axisMarks() {
  const { from } = view, isNow = D.now >= from && D.now < from + DAY, hour = innerWidth < 700 ? 240 : 120;
  const names = parseFloat(getComputedStyle(document.documentElement).getPropertyValue('--names'));
  const wide = Math.min($('#lines').clientWidth - names, AXIS.most), taken = [], marks = [];
  const put = (minute, text, look, sides) => {
    const size = text.length * (look ? AXIS.bold : AXIS.letter) + (look === 'at' ? AXIS.padding : 0);
    for (const side of sides) {
      const left = wide * (minute - from) / DAY - size * { middle: .5, left: 0, right: 1 }[side], right = left + size;
      const isFree = taken.every(([a, b]) => right + AXIS.gap <= a || left >= b + AXIS.gap);
      if (look !== 'at' && (!isFree || left < 0 || right > wide)) continue;
      taken.push([left, right]);
      marks.push({ minute, text, look: look + ' ' + side });
      return;
    }
  };
  if (isNow) put(D.now, clock(D.now), 'at', ['middle']);
  const midnight = Math.ceil(from / DAY) * DAY;
  for (const day of [midnight, midnight + DAY]) {
    if (day < from + DAY) put(day, dayName(day), 'day', ['middle', 'left', 'right']);
  }
  for (let m = Math.ceil((from + 1) / hour) * hour; m < from + DAY; m += hour) {
    if (m % DAY) put(m, clock(m), '', ['middle']);
  }
  return marks;
}

function axis() {
  return h('div', { class: 'axis', 'aria-hidden': 'true' }, h('div', {}, axisMarks().map(({ minute, text, look }) =>
    h('span', { css: 'left:' + share(minute) + '%', class: look }, text))));
}

/** The remark beside a row's box. */
function remark(i) {
  const early = due[i] < ia[i] ? 'due before it arrives' : '';
  if (late.has(i)) return lateness(i) + (early && ', ' + early);
  if (state(i) === 'E') return 'in error';
  if (risk.has(i)) return 'at risk';
  if (early) return early;
  if (ia[i] >= view.from + DAY || due[i] < view.from) return times(i);
  return due[i] > view.from + DAY ? 'due ' + at(due[i]) : '';
}

/** A row's picture: its box, a line from the deadline to now if it is late, and a remark, over which no arrow goes. */
function track(i) {
  const left = share(ia[i]), right = Math.max(share(due[i]), left + .35), isThin = 'CH'.includes(state(i));
  const tail = late.has(i) ? Math.max(share(D.now), right) : right, text = remark(i);
  const where = tail < 84 ? 'left:' + Math.max(tail, 0) + '%' : left > 16 ? 'right:' + (100 - Math.min(left, 100)) + '%'
    : 'right:0';
  return h('span', { class: 'way', 'aria-hidden': 'true' }, s('svg', { class: 'track' },
    s('rect', { class: 'k ' + state(i), x: left + '%', width: right - left + '%', rx: 3, y: isThin ? '34%' : '20%',
      height: isThin ? '32%' : '60%' }, s('title', {}, times(i))),
    tail > right
      ? s('line', { class: 'over', x1: Math.max(right, 0) + '%', x2: tail + '%', y1: '50%', y2: '50%' }) : ''),
  text ? h('span', { class: 'remark ' + (tone(i) || (risk.has(i) ? 'is-late' : '')), css: where }, text) : '');
}

/** What stands beside a row's name: its day where it arrived before the window, its time where its name comes twice. */
function sinceText(i, isTwin) {
  const day = ia[i] < view.from ? '◂ ' + dayName(ia[i]).slice(4) : '';
  return [day, isTwin ? clock(ia[i]) : ''].filter(Boolean).join(' ');
}

function dayRow(i, n, isTwin) {
  const more = late.has(i) ? ', ' + lateness(i) : risk.has(i) ? ', at risk' : '';
  const since = sinceText(i, isTwin);
  return h('li', {}, h('button', { class: 'row', 'data-i': i, tabindex: n ? -1 : 0,
    'aria-label': rowName(i) + ', ' + asText(why(i)) + ', due ' + at(due[i]) + more },
  h('span', { class: 'lab' }, badge(i), h('span', { class: 'name ' + tone(i) }, name(i)),
    since && h('em', { title: 'arrived ' + at(ia[i]) }, since)),
  track(i)));
}

function nothing(counts) {
  if (isFiltered()) return 'Nothing of ' + findText() + ' in these hours.';
  if (view.kind === 'all') return 'Nothing arrives or is due in these hours.';
  return 'Nothing of this kind in these hours; “All” shows ' + counts.all + '.';
}

function drawDay() {
  const { rows, counts } = rowsOfDay();
  if (view.graph && view.pick >= 0) counts.chain = wholeChain().length;
  drawDayTools(counts);
  if (view.graph) drawGraph(rows); else drawRows(rows, counts);
  markChosen();
}

/** What other parts do with the lines of the day once they are drawn. */
const onLines = [];

function drawRows(rows, counts) {
  const lines = linesOf(rows), drawn = lines.slice(0, view.most), number = new Map();
  for (const i of rows) number.set(app(i), (number.get(app(i)) || 0) + 1);
  const box = h('ol', { class: 'rows' }, drawn.map((line, n) =>
    typeof line === 'number' ? dayRow(line, n, number.get(app(line)) > 1) : groupRow(line, n)));
  const pane = h('div', { class: 'pane' }, axis(), box);
  if (!rows.length) pane.append(h('p', { class: 'empty' }, nothing(counts)));
  if (lines.length > drawn.length) {
    const text = 'Show 400 more of ' + lines.length;
    pane.append(tool('more', text, () => { view.most += 400; keepFocus(drawDay); }, { class: 'more' }));
  }
  fill('#lines', pane);
  layArrows(box, drawn);
  for (const dress of onLines) dress(box, drawn);
}

function showFrom(minute) {
  view.from = minute;
  view.most = 400;
  keepFocus(drawDay);
}

function showKind(kind) {
  view.kind = kind;
  view.most = 400;
  if (OF_TILES.includes(kind)) view.from = nowWindow();
  keepFocus(drawDay);
}

function showNow() {
  if (view.kind === 'chain' || OF_TILES.includes(view.kind)) view.kind = 'open';
  showFrom(nowWindow());
}

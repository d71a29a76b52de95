// A year's calendar of an application: which of its days an edit takes away, adds, changes or leaves. Each kind of day
// has a sign, a pattern and a text for screen readers besides its colour.
const KINDS_OF_DAY = [
  { sign: '-', mark: '−', kind: 'goes', text: ' goes', one: 'day goes', more: 'days go', count: 'goes' },
  { sign: '+', mark: '+', kind: 'comes', text: ' comes', one: 'day comes', more: 'days come', count: 'comes' },
  { sign: '~', mark: '~', kind: 'other', text: ' has other runs', one: 'day has other runs',
    more: 'days have other runs', count: 'other' },
  { sign: '=', mark: '=', kind: 'stays', text: ' stays', one: 'day stays', more: 'days stay', count: 'stays' },
];
const PLANNED_DAY = { sign: ' ', kind: 'planned' };
const FROM_MONDAY = ['Monday', 'Tuesday', 'Wednesday', 'Thursday', 'Friday', 'Saturday', 'Sunday'];
const kindOfDay = sign => [...KINDS_OF_DAY, PLANNED_DAY].find(one => one.sign === sign);
const dayNumber = text => Date.parse(text + 'T00:00Z') / 86400000;
const minuteOf = text => dayNumber(text.slice(0, 10)) * DAY + 60 * text.slice(11, 13) + +text.slice(14);

/** The months of a span of days: the first day of each that is in it, and how many are. */
function monthsOf(first, last) {
  const found = [];
  for (let day = first; day <= last;) {
    const date = dateOf(day * DAY);
    const next = Date.UTC(date.getUTCFullYear(), date.getUTCMonth() + 1, 1) / 86400000;
    found.push([day, Math.min(next, last + 1) - day]);
    day = next;
  }
  return found;
}

/** A run in words: when it arrives, when it is due, and by which run cycle. */
function runText({ ia: arrival, deadline, run_cycle: cycle }) {
  const [begin, end] = [minuteOf(arrival), minuteOf(deadline)];
  return clock(begin) + ' due ' + (dayOf(end) === dayOf(begin) ? '' : dayName(end) + ' ') + clock(end) + ' by ' + cycle;
}

const runsText = runs => runs.map(runText).join(', ') || 'none';
const differenceText = one => runsText(one.was) + ' → ' + runsText(one.now);

function yearCell(day, sign, texts) {
  const kind = kindOfDay(sign), number = String(dateOf(day * DAY).getUTCDate());
  if (!kind) return h('td', {}, number);
  return h('td', { class: kind.kind, title: texts.get(day) }, number,
    kind.mark ? h('i', { 'aria-hidden': 'true' }, kind.mark) : '',
    h('span', { class: 'hidden' }, kind.text || ' is planned already'));
}

/** A month as a table of weeks. */
function yearMonth(begin, length, signs, first, texts) {
  const shift = (begin + 3) % 7, cells = Array.from({ length: shift }, () => h('td'));
  for (let day = begin; day < begin + length; day++) cells.push(yearCell(day, signs[day - first], texts));
  const weeks = [];
  for (let n = 0; n < cells.length; n += 7) weeks.push(h('tr', {}, cells.slice(n, n + 7)));
  return h('table', {}, h('caption', {}, monthName(begin * DAY)),
    h('thead', {}, h('tr', {}, FROM_MONDAY.map(name => h('th', { scope: 'col', abbr: name }, name.slice(0, 2))))),
    h('tbody', {}, weeks));
}

/** What each sign means, with the number of its days. */
function yearLegend(one) {
  const lines = KINDS_OF_DAY.map(kind => h('li', {},
    h('span', { class: 'key ' + kind.kind, 'aria-hidden': 'true' }, h('i', {}, kind.mark)),
    many(one[kind.count], kind.one, kind.more)));
  const planned = one.signs.includes(' ') ? h('li', {}, h('span', { class: 'key planned', 'aria-hidden': 'true' }),
    'before the end of the current plan: not planned again') : '';
  return h('ul', { class: 'days-legend' }, lines, planned);
}

/** The days that differ, one after the other in words. */
function yearDifferences(one) {
  const number = one.goes + one.comes + one.other, lines = one.differences.map(({ day, ...runs }) =>
    h('li', {}, dayName(dayNumber(day) * DAY) + ': ' + differenceText(runs)));
  return number ? h('details', { 'data-key': 'days that differ' }, h('summary', { class: 'quiet' },
    many(number, 'day that differs', 'days that differ') + ', in words'),
  h('ul', { class: 'plain' }, lines, restLine(number, lines.length))) : '';
}

/** The calendar of an application from a day to another. */
function yearOf(one, first, last) {
  const texts = new Map(one.differences.map(runs => [dayNumber(runs.day), differenceText(runs)]));
  return h('div', { class: 'year', role: 'group', 'aria-label': 'Days of ' + one.app + ', ' + monthName(first * DAY) +
    ' to ' + monthName(last * DAY) }, monthsOf(first, last).map(([begin, length]) =>
    yearMonth(begin, length, one.signs, first, texts)));
}

/** The numbers of an application's days in a sentence. */
const daysText = one => KINDS_OF_DAY.map(kind => many(one[kind.count], kind.one, kind.more)).join(', ');

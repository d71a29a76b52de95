// The months: applications by days, with the free days of each calendar.
const MOST_CALENDARS = 12;
const isFree = (calendar, day) => D.calendars[calendar][2][day - D.first] === '0';
const isToday = day => day === dayOf(D.now);

/** The first day of each month, or part of a month, that the page has. */
function firstDays() {
  const days = [];
  for (let day = D.first; day <= D.last; day++) {
    if (!days.length || dateOf(day * DAY).getUTCDate() === 1) days.push(day);
  }
  return days;
}
let months = firstDays();

/** By application and day of a month: how many arrive, and how many of these are complete, in error and late. */
function countMonth(first, length) {
  const counts = new Map(), sums = new Array(length).fill(0);
  for (let i = 0; i < rowCount; i++) {
    const day = dayOf(ia[i]) - first;
    if (day < 0 || day >= length || isGone(i)) continue;
    if (!counts.has(app(i))) counts.set(app(i), Array.from({ length }, () => ({ all: 0, done: 0, error: 0, late: 0 })));
    const cell = counts.get(app(i))[day];
    cell.all++;
    if ('CH'.includes(state(i))) cell.done++;
    if (state(i) === 'E') cell.error++;
    if (late.has(i)) cell.late++;
    if (isWanted(i)) sums[day]++;
  }
  return { counts, sums };
}

/** The most frequent number of runs a day, of the days on which an application runs; of several the least. */
function usualOf(cells) {
  const days = new Map();
  for (const cell of cells) if (cell.all) days.set(cell.all, (days.get(cell.all) || 0) + 1);
  return [...days.keys()].sort((a, b) => days.get(b) - days.get(a) || a - b)[0];
}

/** How a cell looks: the darker, the more runs it has than are usual for its application. */
function cellClass(cell, calendar, day, usual) {
  const parts = [isFree(calendar, day) ? 'free' : '', isToday(day) ? 'today' : ''];
  if (cell.error) parts.push('bad');
  else if (cell.late) parts.push('late');
  else if (cell.all) parts.push(cell.done === cell.all ? 'done'
    : cell.all <= usual ? 'n1' : cell.all < 3 * usual ? 'n2' : 'n3');
  return parts.filter(Boolean).join(' ');
}

function monthRow(k, cells, first, row) {
  const calendar = D.apps[k][2], usual = usualOf(cells);
  const total = cells.reduce((sum, cell) => sum + cell.all, 0);
  const title = h('button', { tabindex: -1, 'data-a': k, on: () => showApp(k) }, D.apps[k][0]);
  return h('tr', {}, h('th', { scope: 'row' }, title),
    cells.map((cell, n) => h('td', { 'data-d': first + n, 'data-a': k, tabindex: row || n ? -1 : 0,
      'aria-label': cell.error ? cell.all + ', in error' : cell.late ? cell.all + ', late' : undefined,
      class: cellClass(cell, calendar, first + n, usual) },
    cell.all ? cell.all + (cell.error ? 'E' : cell.late ? '!' : '') : '')), h('td', {}, String(total)));
}

function headRow(days) {
  const plain = D.calendars.findIndex(calendar => calendar[0] === D.plan.calendar);
  return h('tr', {}, h('th', { scope: 'col' }, 'Application'), days.map(day =>
    h('th', { scope: 'col', 'data-day': day, class: (isFree(plain, day) ? 'free ' : '') + (isToday(day) ? 'today' : '') },
      WEEKDAYS[dateOf(day * DAY).getUTCDay()].slice(0, 2), h('br'), String(dateOf(day * DAY).getUTCDate()))),
  h('th', { scope: 'col' }, 'All'));
}

function calendarRow([title, isDefined], k, days) {
  return h('tr', { class: 'calendar' }, h('th', { scope: 'row' }, title + (isDefined ? '' : ' (not defined)')),
    days.map(day => h('td', { class: (isFree(k, day) ? 'free ' : '') + (isToday(day) ? 'today' : '') },
      isFree(k, day) ? 'free' : '')), h('td'));
}

function drawMonthTools(run, idle) {
  const go = k => { view.month = k; keepFocus(drawMonth); };
  const choice = h('select', { 'aria-label': 'Month', 'data-key': 'month' },
    months.map((day, k) => h('option', { value: k }, monthName(day * DAY))));
  choice.value = view.month;
  choice.addEventListener('change', () => go(+choice.value));
  fill('#monthtools',
    h('span', { class: 'set' },
      step('month back', '◂', 'Month before', () => go(view.month - 1), !view.month), choice,
      step('month on', '▸', 'Month after', () => go(view.month + 1), view.month === months.length - 1)),
    h('b', { class: 'printed' }, monthName(months[view.month] * DAY)),
    h('span', { class: 'quiet' }, many(run, 'application runs', 'applications run') +
      (idle ? ', ' + idle + (idle === 1 ? ' does not' : ' do not') : '') +
      '. A number says how many arrive; it is darker if they are more than usual. Free days are hatched.'));
}

function sumRow(sums, first) {
  return h('tr', { class: 'sum' }, h('th', { scope: 'row' }, isFiltered() ? 'All of these' : 'All applications'),
    sums.map((sum, n) => h('td', { 'data-day': first + n, tabindex: -1, class: isToday(first + n) ? 'today' : '' },
      sum ? String(sum) : '')),
    h('td', {}, String(sums.reduce((x, y) => x + y, 0))));
}

function drawMonth(isAgain) {
  if (!D.plan.created) {
    fill('#grid', h('div', { class: 'pane' }, h('p', { class: 'empty' }, 'No days are planned yet.')));
    return;
  }
  if (view.month === null) view.month = Math.max(0, months.findLastIndex(day => day <= dayOf(D.now)));
  const first = months[view.month], length = (months[view.month + 1] ?? D.last + 1) - first;
  const days = Array.from({ length }, (_, n) => first + n), { counts, sums } = countMonth(first, length);
  const wanted = [...D.apps.keys()].filter(k => matches(D.apps[k][0])), run = wanted.filter(k => counts.has(k));
  drawMonthTools(run.length, wanted.length - run.length);
  const caption = 'Occurrences by application and day, ' + monthName(first * DAY);
  const rows = run.slice(0, view.apps).map((k, row) => monthRow(k, counts.get(k), first, row));
  const calendars = D.calendars.slice(0, MOST_CALENDARS).map((calendar, k) => calendarRow(calendar, k, days));
  const left = rest(D.calendars.length, MOST_CALENDARS, ' calendars');
  const cells = [...days, 'All'].map(() => h('td'));
  if (left) calendars.push(h('tr', { class: 'calendar' }, h('th', { scope: 'row' }, left), cells));
  const table = h('table', { class: 'month', role: 'grid' }, h('caption', { class: 'hidden' }, caption),
    h('thead', {}, headRow(days)), h('tbody', {}, calendars, sumRow(sums, first), rows));
  const pane = h('div', { class: 'pane' }, table);
  if (!run.length) {
    const what = isFiltered() ? 'Nothing of ' + findText() : 'Nothing';
    pane.append(h('p', { class: 'empty' }, what + ' runs in this month.'));
  }
  const hidden = run.length - rows.length;
  const more = 'Show ' + Math.min(400, hidden) + ' more of ' + run.length + ' applications';
  fill('#grid', pane, hidden > 0 && h('button', { class: 'more', 'data-key': 'more applications', on: () => {
    view.apps += 400;
    keepFocus(drawMonth);
  } }, more));
  if (!isAgain) requestAnimationFrame(scrollToToday);
}

/** Shows all of a day. */
function openDay(day) {
  view.kind = 'all';
  showFrom(day * DAY);
  say(dayName(day * DAY));
}

/** Shows the day of a chosen cell, and the first occurrence of its application; of a sum or a head the day. */
function chooseCell(cell) {
  if (cell.dataset.day) return openDay(+cell.dataset.day);
  const k = +cell.dataset.a, day = +cell.dataset.d;
  const first = (perApp.get(k) || []).find(i => dayOf(ia[i]) === day && !isGone(i));
  Object.assign(view, { from: day * DAY, kind: 'all', most: 400 });
  if (first === undefined) {
    drawDay();
    showApp(k);
  } else choose(first);
}

const CELLS = 'tbody button[data-a], td[data-d], td[data-day]';

/** The cell, or the application's name in front of the cells, to which an arrow key leads. */
function nextCell(cell, [across, down]) {
  const row = cell.closest('tr'), other = down > 0 ? row.nextElementSibling : row.previousElementSibling;
  const day = cell.dataset.d || cell.dataset.day;
  if (down) return other?.querySelector(day ? `td[data-d="${day}"], td[data-day="${day}"]` : 'button[data-a]');
  const cells = [...row.querySelectorAll(CELLS)], column = cells.indexOf(cell);
  return cells[Math.min(Math.max(column + across, 0), cells.length - 1)];
}

/** Scrolls to today if the month is wider than the screen. */
function scrollToToday() {
  const pane = $('#grid .pane'), head = $('.month thead .today');
  if (head && pane.scrollWidth > pane.clientWidth) pane.scrollLeft = head.offsetLeft - pane.clientWidth / 2;
}

// The top of the page, the search, the keys, and the start.

function drawTop() {
  const { first, last, created } = D.plan;
  const date = day => dateOf(day * DAY).getUTCDate() + ' ' + monthName(day * DAY);
  $('#file').textContent = D.file;
  fill('#asof', 'as of ', h('b', {}, dayName(D.now) + ' ' + year(D.now) + ' ' + clock(D.now)),
    created ? ' · planned ' + date(first) + ' to ' + date(last) : '');
  $('#note').hidden = !D.note;
  $('#note').textContent = D.note;
  if (D.apps.length <= 2000) $('#names').append(...D.apps.map(one => h('option', { value: one[0] })));
  if (!created) for (const part of ['#next', '#day']) $(part).hidden = true;
}

/** Says how old the page is, by the viewer's clock; the page itself keeps its moment. */
function tellAge() {
  const t = new Date();
  const here = Date.UTC(t.getFullYear(), t.getMonth(), t.getDate(), t.getHours(), t.getMinutes()) / 60000;
  const age = Math.round(here - D.made);
  $('#stale').hidden = D.sample || age < 5;
  $('#stale').textContent = 'This page is ' + length(Math.max(age, 0)) + ' old: make it again.';
}

let waiting_ = 0;
function find() {
  clearTimeout(waiting_);
  waiting_ = setTimeout(() => {
    const was = isFiltered();
    view.find = $('#find').value.toUpperCase().split(/[\s,]+/).filter(Boolean);
    if (isFiltered() && !was) Object.assign(view, { kept: view.kind, kind: 'all' });
    else if (!isFiltered() && was) view.kind = view.kept;
    view.most = 400;
    tellFilter();
    drawNow();
    drawDay();
    drawMonth();
    drawChanges();
  }, 120);
}

/** Says what the search shows, on the page, on paper and in the title of the tab. */
function tellFilter() {
  const number = D.apps.filter(one => matches(one[0])).length;
  nameTab();
  $('#filtered').hidden = !isFiltered();
  fill('#filtered', 'only applications with ', h('b', {}, findText()), ': ' + number + ' of ' + D.apps.length + ' ',
    h('button', { class: 'in', on: () => {
      $('#find').value = '';
      $('#find').focus();
      find();
    } }, 'Show all'));
  fit();
  say(many(number, 'application'));
}
let titleOfAll = document.title;

/** Says in the title of the tab how bad it is, also for the applications of a search. */
function nameTab() {
  document.title = titleOfAll;
  if (!isFiltered()) return;
  const counts = countStates(isWanted);
  document.title = counts.E + ' in error, ' + counts.late + ' late of ' + findText() + ': ' + titleOfAll;
}

/** Goes to the next row in trouble: first those in error, then the late, then those at risk, each by deadline. */
function nextTrouble() {
  const rank = i => state(i) === 'E' ? 0 : late.has(i) ? 1 : 2;
  const rows = Array.from({ length: rowCount }, (_, i) => i).filter(i => isTrouble(i) && isWanted(i))
    .sort((a, b) => rank(a) - rank(b) || due[a] - due[b] || a - b);
  if (!rows.length) return say(isFiltered() ? 'None of these is in trouble.' : 'Nothing is in trouble.');
  view.kind = 'trouble';
  choose(rows[(rows.indexOf(view.pick) + 1) % rows.length]);
  laid.buttons.get(view.pick)?.focus();
}

function inField(event) {
  if (event.key === 'Enter' && event.target.id === 'find' && !onFind.some(take => take())) openFound();
  if (event.key === 'Escape' && event.target.value && event.target.id === 'find') {
    event.target.value = '';
    find();
  } else if (event.key === 'Escape') event.target.blur();
}

const STEPS = { ArrowDown: [0, 1], ArrowUp: [0, -1], ArrowRight: [1, 0], ArrowLeft: [-1, 0], Home: [-99, 0],
  End: [99, 0] };

/** Moves the one tab stop of a list or a table. */
function moveStop(from, to) {
  if (!to?.matches('.row, .node, ' + CELLS)) return;
  from.setAttribute('tabindex', '-1');
  to.setAttribute('tabindex', '0');
  to.focus();
}

function onKey(event) {
  if (event.ctrlKey || event.metaKey || event.altKey) return;
  if (event.target.matches('input, select')) return inField(event);
  const cell = event.target.closest?.(CELLS), row = event.target.closest?.('.row'), step = STEPS[event.key];
  const node = event.target.closest?.('.node');
  const done = act => { event.preventDefault(); act(); };
  if (event.key === 'Escape') return shut();
  if (cell && step) return done(() => moveStop(cell, nextCell(cell, step)));
  if (cell?.matches('td') && (event.key === 'Enter' || event.key === ' ')) return done(() => chooseCell(cell));
  if (row && step?.[1]) {
    const rows = [...document.querySelectorAll('.row')];
    return done(() => moveStop(row, rows[rows.indexOf(row) + step[1]]));
  }
  if (node && step) return done(() => moveStop(node, nextNode(node, step)));
  if (node && (event.key === 'Enter' || event.key === ' ')) {
    const i = +node.dataset.i;
    return done(() => i === view.pick ? $('#card').focus() : choose(i));
  }
  if (row && event.key === 'Enter' && +row.dataset.i === view.pick) return done(() => $('#card').focus());
  if (Math.abs(step?.[0]) === 1) return done(() => showFrom(view.from + step[0] * DAY / 2));
  if (event.key === '/') return done(() => { $('#find').focus(); $('#find').select(); });
  if (event.key === 'n') showNow();
  if (event.key === 't') nextTrouble();
  if (event.key === 'g') showAsGraph(!view.graph);
  if (event.key === '?') showHelp(!view.help);
}

/** The row that the address names by its serial, as #o970. */
function addressed() {
  const found = location.hash.match(/^#o(\d+)$/);
  return found ? rowOfSerial(+found[1]) ?? -1 : -1;
}

/** Listens: the pointer and the focus show a row's arrows, a click chooses it. */
function listen() {
  const rowOf = event => event.target.closest?.('.row[data-i], .node');
  const look = event => { const row = rowOf(event); showArrows(row ? +row.dataset.i : view.pick); };
  $('#lines').addEventListener('click', event => {
    const row = rowOf(event);
    if (row) choose(+row.dataset.i);
  });
  $('#lines').addEventListener('mouseover', look);
  $('#lines').addEventListener('mouseleave', () => showArrows(view.pick));
  $('#lines').addEventListener('focusin', event => { if (rowOf(event)?.matches(':focus-visible')) look(event); });
  $('#grid').addEventListener('click', event => {
    const cell = event.target.closest('td[data-d], [data-day]');
    if (cell) chooseCell(cell);
  });
  $('#find').addEventListener('input', find);
  $('#help').addEventListener('click', () => showHelp(!view.help));
  addEventListener('keydown', onKey);
  addEventListener('resize', fit);
  addEventListener('hashchange', () => { if (addressed() >= 0) choose(addressed(), true); });
  addEventListener('beforeprint', () => {
    document.querySelectorAll('#needs .more').forEach(button => button.click());
    for (const part of document.querySelectorAll('#needs .group:not([open])')) {
      part.drawLines();
      part.open = true;
      part.classList.add('for-paper');
    }
  });
  addEventListener('afterprint', () => document.querySelectorAll('.for-paper').forEach(part => {
    part.open = false;
    part.classList.remove('for-paper');
  }));
}

function fit() {
  const height = innerWidth > 760 ? $('header').offsetHeight : 0;
  document.documentElement.style.setProperty('--top', height + 'px');
}

document.querySelectorAll('nav, #shell').forEach(part => { part.hidden = false; });
drawTop();
tellAge();
setInterval(tellAge, 30000);
drawNow();
drawMonth();
drawChanges();
listen();
fit();
choose(addressed(), true);

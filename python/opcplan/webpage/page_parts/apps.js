// The card of an application.
const MOST_APPS = 40;
/** What other parts put into the card of an application, below its next run. */
const inAppCard = [];

function cycleLine([title, kind, period, rule, offsets, time, days, minute, inEffect, outEffect]) {
  const numbers = offsets.slice(0, 12).join(' ') + (offsets.length > 12 ? ' ' + rest(offsets.length, 12) : '');
  const later = days ? ' ' + many(days, 'day') + ' later' : '';
  const deadline = minute === null ? '' : ', due ' + clock(minute) + later;
  const effect = (inEffect * DAY > D.now ? ', from ' + dayName(inEffect * DAY) : '') +
    (outEffect === null ? '' : ', until before ' + dayName(outEffect * DAY));
  const which = (kind === 'X' ? ' takes away ' : ' ') + period + ' ' + numbers;
  const text = which + ' at ' + clock(time) + deadline + effect;
  const how = h('span', { class: 'quiet' }, '; ' + (RULES[rule] || rule));
  return h('p', { class: 'cycle' }, h('b', {}, title), text, how);
}

/** An application in a list: a button if it is defined or has rows. */
function appLink(other) {
  if (typeof other === 'string') return h('span', {}, other + ' (not defined) ');
  return h('button', { class: 'in', 'data-a': other, on: () => showApp(other) }, D.apps[other][0]);
}

/** A predecessor, with its limit: it counts if it arrives at most so many hours before. */
function waitLink(other, hours) {
  const limit = h('small', { class: 'quiet' }, 'within ' + hours + ' h ');
  return hours === null ? appLink(other) : h('span', {}, appLink(other), limit);
}

function part(title, rows, most = 20) {
  if (!rows.length) return '';
  const line = i => h('li', {}, h('button', { 'data-i': i, on: () => choose(i) }, badge(i),
    h('span', {}, dayName(ia[i]) + ' ' + clock(ia[i])),
    h('small', { class: tone(i) }, late.has(i) ? lateness(i) : 'due ' + at(due[i]))));
  return [h('h3', {}, title), h('ul', { class: 'tree' }, rows.slice(0, most).map(line), restLine(rows.length, most))];
}

/** Applications one after another, as links. */
function appsPart(title, others, linkOf) {
  const more = others.length > MOST_APPS ? h('span', { class: 'quiet' }, rest(others.length, MOST_APPS)) : '';
  if (!others.length) return '';
  return [h('h3', {}, title), h('p', { class: 'apps' }, others.slice(0, MOST_APPS).map(linkOf), more)];
}

const statusOf = active => active === 1 ? 'active' : active === 0 ? 'pending' : 'no longer defined';

/** The next run of an application: the first that is neither started nor over, wherever it is planned. */
const nextRun = k => (perApp.get(k) || []).find(i => 'RBFL'.includes(state(i)));

function nextLine(k) {
  const i = nextRun(k);
  if (i === undefined) return h('p', { class: 'quiet' }, 'No run is planned.');
  return h('p', {}, 'Next run: ', h('button', { class: 'in', 'data-i': i, on: () => choose(i) },
    dayName(ia[i]) + ' ' + clock(ia[i])), ', due ' + at(due[i]));
}

function drawApp(k) {
  const [title, active, calendar, cycles] = D.apps[k], rows = perApp.get(k) || [];
  const followers = D.apps.map((_, other) => other).filter(other => D.lists[other].includes(k));
  const isDefined = D.calendars[calendar][1] ? '' : ' (not defined)';
  fill('#card', close(), h('h2', {}, title),
    h('p', { class: 'quiet' }, statusOf(active) + ', calendar ' + D.calendars[calendar][0] + isDefined),
    nextLine(k), inAppCard.map(part => part(k)),
    part('Not complete', rows.filter(isOpen)),
    part('Next', rows.filter(i => state(i) === 'L' && ia[i] >= D.now), 8),
    part('Last', rows.filter(i => 'CH'.includes(state(i))).reverse(), 5),
    part('Deleted or withdrawn', rows.filter(isGone)),
    h('h3', {}, 'Run cycles'), cycles.length ? cycles.map(cycleLine) : h('p', { class: 'quiet' }, 'none'),
    appsPart('Waits for', D.lists[k], (other, place) => waitLink(other, D.limits[k][place])),
    appsPart('Waits for it', followers, appLink));
}

function showApp(k) {
  view.app = k;
  const isInCard = $('#card').contains(document.activeElement);
  keepHeight(showCard);
  $('#card').scrollTop = 0;
  if (isInCard) $('#card').focus({ preventScroll: true });
  say(D.apps[k][0] + ', ' + statusOf(D.apps[k][1]));
}

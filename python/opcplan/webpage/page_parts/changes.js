// What changed: jobs since the last daily plan, and the difference to an older copy of the plan.
const ORDER = ['Ended in error', 'Deleted or withdrawn', 'New', 'Due at another time', 'Reset', 'Started',
  'Came into the current plan', 'Completed'];

const REFUSED = { 13: 'no such definition', 20: 'there was no plan', 21: 'there was a plan already',
  22: 'its calendar wasn’t defined', 23: 'its period wasn’t defined', 24: 'days out of range',
  25: 'predecessors in a loop', 26: 'no active application', 27: 'it was there already', 28: 'there was no such row',
  29: 'its status didn’t allow it', 30: 'it waited for ', 31: 'too many rows', 32: 'plan end out of range' };

/** What a refusal means, in a few words. */
function meaning(reply) {
  const [, number, detail] = reply.split(' '), row = number === '30' ? rowOfSerial(+detail) : undefined;
  if (!(number in REFUSED)) return '';
  return [': ' + REFUSED[number], row === undefined ? (number === '30' ? detail : '') : reference(row)];
}

function kindOfChange([, was, is]) {
  if (was === '') return 'New';
  if (was === is) return 'Due at another time';
  if (is === 'E') return 'Ended in error';
  if ('owpD'.includes(is)) return 'Deleted or withdrawn';
  if ('CH'.includes(is)) return 'Completed';
  if (is === 'S') return 'Started';
  return was === 'L' ? 'Came into the current plan' : 'Reset';
}

function changeLine([number, , , title, arrival, wasDue, nowDue]) {
  const due = wasDue === nowDue ? '' : ', due ' + at(nowDue) + ' and no longer ' + at(wasDue);
  const i = rowOfSerial(number);
  return h('li', {}, i === undefined ? title + ' ' + at(arrival) : link(i), due);
}

function sinceBox(since) {
  const groups = new Map();
  for (const row of since.rows) if (matches(row[3])) put(groups, kindOfChange(row), row);
  const kinds = ORDER.filter(kind => groups.has(kind)), definitions = since.definitions.filter(isOfThese);
  const kept = since.count > since.rows.length ? h('p', { class: 'quiet' }, 'The first ' + since.rows.length + ' of ' +
    since.count + ' are shown.') : '';
  return h('div', { class: 'pane box' }, h('h3', {}, 'Since ' + since.file + ', which was written ' + since.kept),
    kinds.length ? kinds.map(kind => h('details', {}, h('summary', {}, h('b', {}, String(groups.get(kind).length)),
      ' ' + kind.toLowerCase()), h('ul', { class: 'tree' }, groups.get(kind).slice(0, 200).map(changeLine),
      restLine(groups.get(kind).length, 200))))
      : h('p', { class: 'empty' }, none('No occurrence changed.', 'None of these changed.')), kept,
    definitions.length ? h('details', {}, h('summary', {}, h('b', {}, String(definitions.length)),
      ' of the definitions'), h('ul', { class: 'tree' }, definitions.slice(0, 500).map(([what, title, how]) =>
      h('li', {}, what + ' ' + title + ': ' + how)), restLine(definitions.length, 500)))
      : h('p', { class: 'quiet' }, none('No definition changed.', 'No definition of these changed.')));
}

/** Whether a changed definition is shown while applications are filtered: one of theirs, or one of no application. */
function isOfThese([what, title]) {
  return !['application', 'run cycles of', 'predecessors of'].includes(what) || matches(title);
}

/** Whether a job is shown while applications are filtered: those that name one of them. */
function isJobOfThese([, statement]) {
  const named = statement.match(/--(?:app|name)[ \t=]+(\S+)/);
  return !isFiltered() || named !== null && matches(named[1]);
}

function jobsBox() {
  const counted = { 'cp-start': 0, 'cp-complete': 0 }, rows = [];
  let refused = 0;
  const jobs = D.jobs.filter(isJobOfThese);
  for (const [number, statement, reply] of jobs) {
    const verb = statement.split(/[ \t]/)[0], isRefused = reply.startsWith('refused');
    refused += isRefused;
    if (verb in counted && !isRefused) counted[verb]++;
    else rows.push([number, statement.replace(/ --job[ =]\d+$/, ''), reply, isRefused]);
  }
  const told = Object.entries(counted).filter(one => one[1]).map(([verb, number]) => number + ' ' + verb).join(', ');
  const title = isFiltered()
    ? 'Jobs since the last daily plan that name one of these: ' + jobs.length + ' of ' + D.jobCount
    : 'Jobs since the last daily plan: ' + D.jobCount;
  const lost = D.jobCount - D.jobs.length, shown = rows.slice(-200);
  const caption = 'All' + (told ? ' but accepted starts and completions' : '') + ', by job number' +
    (shown.length < rows.length ? ': the last 200 of ' + rows.length : '');
  const head = ['Job', 'Statement', 'Answer'].map(text => h('th', { scope: 'col' }, text));
  const lines = shown.map(([number, statement, reply, isRefused]) => h('tr', {}, h('td', {}, String(number)),
    h('td', {}, statement), h('td', {}, h('span', { class: isRefused ? 'refused' : '' }, reply),
      isRefused ? meaning(reply) : '')));
  return h('div', { class: 'pane box' }, h('h3', {}, title + (refused ? ', ' + refused + ' refused' : '')),
    lost ? h('p', { class: 'quiet' }, 'The last ' + D.jobs.length + ' of these are shown and counted.') : '',
    told ? h('p', { class: 'quiet' }, told + (rows.length ? ', and these' : '')) : '',
    lines.length ? h('table', { class: 'jobs' }, h('caption', {}, caption), h('thead', {}, h('tr', {}, head)),
      h('tbody', {}, lines)) : '');
}

/** What is above the changes in place of the hint how to see more of them. */
const aboveChanges = [];

function drawChanges() {
  const hint = 'Name an older copy of the plan with --since to see each occurrence and definition that changed here. ' +
    'A plan stores no times, so the jobs from its last daily plan on follow by their numbers.';
  const above = aboveChanges.length ? aboveChanges.map(part => part()) : h('p', { class: 'hint quiet' }, hint);
  fill('#changed', D.since ? sinceBox(D.since) : above, jobsBox());
}

// A daily plan, or a change of the long-term plan: first its trial is shown, and a second press does it as shown.
const WORKS = [
  { what: 'Daily plan: extend the current plan', field: 'moment', trial: 'dp-trial extend', done: 'dp-extend' },
  { what: 'Daily plan: plan the same days again', trial: 'dp-trial replan', done: 'dp-replan' },
  { what: 'Long-term plan: modify all', trial: 'ltp-trial modify-all', done: 'ltp-modify-all' },
  { what: 'Long-term plan: modify one application', field: 'app', trial: 'ltp-trial modify-one',
    done: 'ltp-modify-one' },
  { what: 'Long-term plan: extend', field: 'day', trial: 'ltp-trial extend', done: 'ltp-extend' },
];
const SIGNS_OF_TRIAL = { '+': 'would be made', '-': 'would be withdrawn', '>': 'would move to the current plan',
  '=': 'would be carried over', H: 'would go to history', X: 'would go to the deletions' };
const MOST_OF_TRIAL = 300, MOST_LOOKS = 4;
let seen = null;  // the trial that is shown

const field = name => $('#field-' + name);

/** The words after a work's statement, or what is wrong with the fields. */
function wordsOf(work) {
  if (work.field === 'app') {
    const text = field('app').value.trim().toUpperCase();
    return /^[A-Z@#$][A-Z0-9@#$]{0,15}$/.test(text) ? { text: ' --app ' + text } : { wrong: 'Name an application.' };
  }
  const day = field('day').value;
  if (work.field === 'day') return day ? { text: ' --to ' + day } : { wrong: 'Choose a day.' };
  const time = field('time').value.slice(0, 5).replace(':', '.');
  if (work.field !== 'moment') return { text: '' };
  return day && time ? { text: ' --to ' + day + '/' + time } : { wrong: 'Choose day and time.' };
}

const workNow = () => WORKS[+$('#work').value];

/** Shows the fields of the chosen work, and drops the trial that is shown. */
function chooseWork(isStart) {
  const { field: wanted } = workNow();
  $('#fields-when').hidden = !['moment', 'day'].includes(wanted);
  field('time').hidden = wanted !== 'moment';
  $('#fields-app').hidden = wanted !== 'app';
  const next = wanted === 'day' ? D.plan.last + 31 : dayOf(D.plan.end) + 1;
  if (['moment', 'day'].includes(wanted)) field('day').value = isoDay(next);
  field('time').value = clock(D.plan.end).replace('.', ':');
  seen = null;
  if (!isStart) tellTrial();
}

function planningSection() {
  const labelled = (text, ...inner) => h('label', {}, h('span', {}, text), ...inner);
  const works = h('select', { id: 'work' }, WORKS.map(({ what }, n) => h('option', { value: n }, what)));
  works.addEventListener('change', () => chooseWork());
  const day = h('input', { type: 'date', id: 'field-day', 'aria-label': 'Day' });
  const time = h('input', { type: 'time', id: 'field-time', 'aria-label': 'Time' });
  const input = h('input', { id: 'field-app', list: 'names', autocomplete: 'off', spellcheck: 'false' });
  for (const one of [day, time, input]) one.addEventListener('input', () => { seen = null; tellTrial(); });
  return h('section', { id: 'planning', 'aria-labelledby': 'h-planning' },
    h('h2', { id: 'h-planning' }, 'Planning'),
    h('div', { class: 'pane box' },
      h('div', { class: 'works tools' }, labelled('What', works),
        h('span', { id: 'fields-when' }, h('span', { class: 'quiet' }, 'to '), day, time),
        h('span', { id: 'fields-app' }, labelled('Application', input)),
        h('button', { class: 'do', id: 'look', on: lookFirst }, 'Show what it would do')),
      h('div', { id: 'trial', tabindex: -1 })));
}

/** What a reply counts, in words: moved 3, carried 0. */
function counted(reply) {
  const words = reply.split(' ').slice(1), found = [];
  for (let n = 0; n + 1 < words.length; n += 2) found.push(words[n + 1] + ' ' + words[n]);
  return found.join(', ');
}

/** A row of a trial, of which a line has the fields in fixed places. */
function trialLine(line) {
  const cycle = line.slice(31, 39).trim() || 'added by hand';
  const cells = [line.slice(12, 28), line.slice(40, 56), line.slice(57, 73), cycle];
  return h('tr', {}, cells.map(text => h('td', {}, text.trim())));
}

function trialGroup(sign, lines) {
  const head = ['Application', 'Arrives', 'Due', 'Run cycle'].map(text => h('th', { scope: 'col' }, text));
  const more = rest(lines.length, MOST_OF_TRIAL);
  return h('details', { open: lines.length <= 12 ? '' : undefined },
    h('summary', {}, h('b', {}, String(lines.length)), ' ' + (SIGNS_OF_TRIAL[sign] || sign)),
    h('div', { class: 'wide' }, h('table', { class: 'jobs' }, h('thead', {}, h('tr', {}, head)),
      h('tbody', {}, lines.slice(0, MOST_OF_TRIAL).map(trialLine)))), more && h('p', { class: 'quiet' }, more));
}

/** Shows a sentence, and the trial with the button that does it, if there is one. */
function tellTrial(parts = [], look = '') {
  const groups = new Map();
  for (const sign in SIGNS_OF_TRIAL) groups.set(sign, []);
  for (const line of seen?.rows || []) put(groups, line[0], line);
  fill('#trial', parts.length ? h('p', { class: 'answer ' + look, id: 'told' }, parts) : '',
    seen ? [h('p', { class: 'statement' }, h('code', {}, seen.done)),
      [...groups].filter(one => one[1].length).map(([sign, lines]) => trialGroup(sign, lines)),
      h('button', { class: 'do sure', id: 'do', on: doSeen }, 'Do it as shown')] : '');
  if (parts.length) say(plainText(parts));
}

const sameTrial = (one, other) => one.reply === other.reply && one.rows.join('\n') === other.rows.join('\n');

/** Runs a trial: what it shows, or null if the reason is shown. */
async function trialOf(trial, done) {
  const found = await ask(trial);
  if (found.wrong) return void tellTrial([found.wrong], 'is-error');
  const [{ reply, rows }] = found.lines;
  if (!reply.startsWith('ok')) return void tellTrial(refusal(reply), 'is-error');
  return { trial, done, rows, reply, tag: found.tag, key: newKey() };
}

const wouldText = one => 'Nothing is done yet. The result would be: ' + counted(one.reply) + '.';

/** The first press. */
async function lookFirst() {
  const work = workNow(), { text, wrong } = wordsOf(work);
  seen = null;
  if (wrong) return tellTrial([wrong], 'is-error');
  tellTrial(['Sent, waiting for the answer …']);
  const found = await trialOf(work.trial + text, work.done + text);
  if (!found) return;
  seen = found;
  tellTrial([wouldText(seen)]);
  $('#trial').focus({ preventScroll: true });
}

/** The second press: does it in the state of the trial, or in a later one in which the trial shows the same. */
async function doSeen() {
  const asked = seen;
  $('#do').disabled = true;
  $('#trial').focus({ preventScroll: true });
  for (let looks = 0; seen === asked && looks < MOST_LOOKS; looks++) {
    const found = await ask(asked.done, asked.key, asked.tag);
    if (found.status !== 412) return tellDone(asked, found);
    const again = await trialOf(asked.trial, asked.done);
    if (!again || seen !== asked) return;
    if (!sameTrial(asked, again)) {
      seen = again;
      const text = 'Nothing was done: the plan has changed since you looked, and the result would now be another: ';
      return tellTrial([text + counted(again.reply) + '. Look at it, and press once more.'], 'is-late');
    }
    asked.tag = again.tag;
  }
  if (seen === asked) tellTrial(['Nothing was done: the plan keeps changing. Press once more.'], 'is-late');
}

function tellDone(asked, found) {
  const reply = found.lines?.[0].reply ?? '';
  if (!found.isOpen) seen = null;
  if (found.wrong) tellTrial([found.wrong], 'is-error');
  else if (reply.startsWith('ok')) tellTrial(['Done: ' + counted(reply) + ' (' + asked.done + ').'], 'is-done');
  else tellTrial(refusal(reply), 'is-error');
}

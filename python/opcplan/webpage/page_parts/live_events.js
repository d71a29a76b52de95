// The desk's events: each change is drawn as it comes, and the rows are fetched again if some came or went.
const MOST_LATELY = 100, MOST_JOBS = 3000, LONGEST_WAIT = 2000, HOUR = 3600000;
/** The position of the last event, that of the rows that were fetched, and what is in progress. */
const live = { position: desk.position, shown: desk.position, isOld: false, isFetching: false, resting: 0,
  failed: 0, tries: 0, drawing: 0, drawn: 0, cost: 0, begun: Date.now(), source: null, lost: '' };
const changes = [];  // statuses after the rows that were fetched: position, serial, status
const lately = [], unsaid = [], ownKeys = new Set();
let applied = 0;

/** The desk's clock, in the minutes of the plan; a page that keeps its moment stays at it. */
const clockNow = () => desk.stands ? D.now : Math.floor(desk.clock + (Date.now() - live.begun) / 60000);

/** Takes an entry: the status of one row, or another change, after which the rows are fetched again. */
function onEntry(entry) {
  if (entry.seq <= live.position) return;
  live.position = entry.seq;
  keepLately(entry);
  drawSoon();
  if (entry.seq <= live.shown) return;
  const { reply, statement, job } = entry, act = statement.match(/^cp-([a-z]+)/)?.[1];
  const found = act in desk.acts && reply.match(desk.reply);
  if (!/^refused 1[012]/.test(reply)) {
    D.jobs.push([job, statement, reply]);
    if (D.jobs.length > MOST_JOBS) D.jobs.shift();
    D.jobCount++;
  }
  if (found) {
    changes.push([entry.seq, +found[1], found[2]]);
    const kept = answers.get(+found[1]);
    if (kept && !kept.busy && !kept.open && !isOwn(entry)) answers.delete(+found[1]);
    if (!isOwn(entry)) unsaid.push(+found[1]);
  }
  if (reply.startsWith('ok') && !(found && desk.acts[act].alone)) fetchRows();
}

const isOwn = entry => entry.key !== null && ownKeys.has(entry.key);

function keepLately(entry) {
  lately.push(entry);
  if (lately.length > MOST_LATELY) lately.shift();
}

/** Gives the rows the statuses that came since they were drawn. */
function applyChanges() {
  for (; applied < changes.length; applied++) {
    const i = rowOfSerial(changes[applied][1]);
    if (i !== undefined) setStatus(i, changes[applied][2]);
  }
  settle(clockNow());
}

/** Draws soon: at once after a rest, and after another drawing the later, the longer that took. */
function drawSoon() {
  const rested = performance.now() - live.drawn, rest = Math.min(LONGEST_WAIT, 4 * live.cost);
  live.drawing ||= setTimeout(() => {
    live.drawing = 0;
    const begun = performance.now();
    drawAll(applyChanges);
    live.drawn = performance.now();
    live.cost = live.drawn - begun;
    sayChanges();
  }, Math.max(40, rest - rested));
}

/** Announces what others changed, or how many rows if they are many. */
function sayChanges() {
  const rows = [...new Set(unsaid.splice(0))].map(rowOfSerial).filter(i => i !== undefined);
  if (!rows.length) return;
  say(rows.length > 3 ? rows.length + ' occurrences changed'
    : rows.map(i => rowName(i) + ' is ' + WORD[state(i)]).join('; '));
}

/** Fetches the rows again, after a rest if they were fetched just now. */
function fetchRows() {
  live.isOld = true;
  if (!live.isFetching && !live.resting) fetchNow();
}

async function fetchNow() {
  Object.assign(live, { isOld: false, isFetching: true });
  const begun = performance.now(), found = await fetchedRows(live.position);
  live.isFetching = false;
  if (found) takeFetched(found);
  Object.assign(live, { isOld: live.isOld || !found, failed: found ? 0 : live.failed + 1 });
  if (listing.isOld || isBehind()) fetchNeeds();
  const rest = found ? Math.min(20000, (performance.now() - begun) / 2) : Math.min(10000, 500 * 2 ** live.failed);
  live.resting = setTimeout(() => {
    live.resting = 0;
    if (live.isOld) fetchNow();
  }, rest);
}

/** The rows at a position or after it, or null. */
async function fetchedRows(since) {
  const now = new URLSearchParams(location.search).get('now');
  try {
    const asked = '/page/data?since=' + since + (now ? '&now=' + encodeURIComponent(now) : '');
    const found = await fetch(asked, { redirect: 'error' });
    if (found.ok) return await found.json();
    tellLink('the plan can’t be fetched: ' + (await found.text()).trim());
  } catch (error) {
    tellLink('the plan can’t be fetched: ' + error.message);
  }
  return null;
}

function takeFetched({ plan, desk: own }) {
  Object.assign(desk, own, own.position < live.position ? { tag: desk.tag } : {});
  live.begun = Date.now();
  live.shown = own.position;
  drawAll(() => {
    changes.splice(0, changes.length, ...changes.filter(([position]) => position > own.position));
    applied = 0;
    takeRows(plan);
    applyChanges();
  }, true);
  tellLink('');
}

/** Listens to the desk, and comes again where that ends. */
function hear() {
  const source = live.source = new EventSource('/events?since=' + live.position);
  source.addEventListener('entry', event => onEntry(JSON.parse(event.data)));
  source.addEventListener('state', event => onState(JSON.parse(event.data)));
  source.onopen = () => {
    live.tries = 0;
    tellLink('');
  };
  source.onerror = () => {
    source.close();
    if (source !== live.source) return;
    tellLink('the desk doesn’t answer; the page shows its last answer');
    live.source = null;
    setTimeout(hear, Math.min(10000, 500 * 2 ** live.tries++));
  };
}

/** Takes the state of the plan: a desk that was started again may have another plan. */
function onState({ tag, position }) {
  const isAnew = tag.split('-')[0] !== desk.tag.split('-')[0];
  desk.tag = tag;
  if (position < live.shown) location.reload();
  else if (isAnew) fetchRows();
  if (isBehind()) fetchNeeds();
}

/** Requests the desk's health, and listens again if no events come. */
async function lookAfter() {
  try {
    const found = await (await fetch('/health')).json();
    if (found.status === 'stopped') return tellLink('the desk is stopped: ' + (found.why || ''));
    if (found.position === undefined) return tellLink('your session has ended; reload the page to sign in');
    const position = live.position;
    if (live.source && found.position > position) {
      setTimeout(() => { if (live.position === position) live.source?.onerror(); }, 3000);
    } else if (live.source?.readyState === EventSource.OPEN) tellLink('');
  } catch {
    tellLink('the desk doesn’t answer; the page shows its last answer');
  }
}

/** Says at the top whether the page is live, and who is signed in. */
function tellLink(lost) {
  if (lost === live.lost && $('#link').textContent) return;
  live.lost = lost;
  document.body.dataset.live = lost ? 'no' : 'yes';
  const role = { read: 'may read', operate: 'may operate', plan: 'may plan' }[desk.role];
  $('#link').className = lost ? 'lost' : '';
  $('#link').textContent = lost ? 'Not live: ' + lost : 'Live · ' + desk.who + ' ' + role;
  if (lost) say('Not live: ' + lost);
}

/** The last statements, who sent them and when. */
function latelyBox() {
  const shown = lately.filter(one => !isFiltered() || isJobOfThese([0, one.statement])).slice(-20).reverse();
  const head = ['At', 'Who', 'Statement', 'Answer'].map(text => h('th', { scope: 'col' }, text));
  return h('div', { class: 'pane box' }, h('h3', {}, 'Sent to the desk, the latest first'),
    shown.length ? h('div', { class: 'wide' }, h('table', { class: 'jobs lately' }, h('thead', {}, h('tr', {}, head)),
      h('tbody', {}, shown.map(latelyLine))))
      : h('p', { class: 'empty' }, none('No statement was sent yet.', 'No statement about these was sent lately.')));
}
aboveChanges.push(latelyBox);

function latelyLine({ at: moment, who, statement, reply }) {
  const time = new Date(Date.parse(moment) + 60000 * desk.zone), isRefused = !reply?.startsWith('ok');
  const when = [time.getUTCHours(), time.getUTCMinutes(), time.getUTCSeconds()].map(two).join('.');
  const answer = h('span', { class: isRefused ? 'refused' : '' }, reply ?? '');
  return h('tr', {}, h('td', { title: moment }, when), h('td', {}, who),
    h('td', {}, statement.replace(/ --job[ =]\d+$/, '')),
    h('td', {}, answer, isRefused && reply ? meaning(reply) : ''));
}

/** Fetches the statements from before the page was opened. */
async function fetchLately() {
  try {
    const found = await fetch('/journal?from=' + Math.max(1, desk.position - 19));
    if (!found.ok) return;
    const lines = (await found.text()).split('\n').filter(Boolean).map(line => JSON.parse(line));
    lately.unshift(...lines.filter(one => one.seq <= desk.position));
    redraw(['#changed'], drawChanges);
  } catch {
    return;
  }
}

// The end of the log of a row's job. It is fetched when its card is opened, when its status changes, and while it runs.
const LOG_LINES = 200, LOG_SECONDS = 5;
// by serial: the text, and the status of the row for which it was fetched; the serial whose card is opened
const jobLogs = new Map();
let logOpened = 0;

/** The part of the card that shows the log, as text. */
function logOf(i) {
  const number = serial[i], isStarted = 'SECH'.includes(state(i));
  if (!may('operate') || !isStarted) return '';
  if (logOpened !== number || jobLogs.get(number)?.key !== state(i)) fetchLog(number, state(i));
  logOpened = number;
  const text = jobLogs.get(number)?.text;
  return text ? h('details', { class: 'log', 'data-key': 'log' }, h('summary', { class: 'quiet' }, 'Log'),
    h('div', { tabindex: 0, role: 'group', 'aria-label': 'End of the log' }, h('pre', {}, text))) : '';
}
inCard.push(logOf);

/** Fetches the log of a serial, and shows it if its card is opened and the log has changed. */
async function fetchLog(number, key) {
  const old = jobLogs.get(number);
  jobLogs.set(number, { text: old?.text, key });
  const text = await logText(number);
  if (jobLogs.get(number)?.key !== key) return;
  jobLogs.set(number, { text, key });
  if (text === old?.text || serial[view.pick] !== number || view.app >= 0) return;
  const [focus, inner] = [focusPlace(), innerPlaces()];
  redraw(['#card'], showCard);
  inner();
  focus();
}

/** The last lines of a log, a sentence if they can't be read, or nothing if the desk has none. */
async function logText(number) {
  try {
    const found = await fetch('/logs/' + number, { redirect: 'error' }), told = (await found.text()).trimEnd();
    return found.ok ? told.split('\n').slice(-LOG_LINES).join('\n') : 'The log can’t be read: ' + told;
  } catch (error) {
    return 'The log can’t be read: ' + error.message;
  }
}

setInterval(() => {
  const i = view.pick, isShown = i >= 0 && view.app < 0 && document.visibilityState === 'visible';
  if (isShown && may('operate') && state(i) === 'S') fetchLog(serial[i], 'S');
}, 1000 * LOG_SECONDS);

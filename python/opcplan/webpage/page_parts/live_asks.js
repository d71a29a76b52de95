// Statements that the page sends to the desk under keys, and their answers as texts.
const desk = JSON.parse(document.getElementById('desk').textContent);
const RESTS = [.3, .7, 1.5, 3, 5, 8, 10];  // seconds between two tries of one request
const MAY = { read: 1, operate: 2, plan: 3 };
const may = role => MAY[desk.role] >= MAY[role];
const pause = seconds => new Promise(done => setTimeout(done, 1000 * seconds));

/** A new key, for one press of a button. */
const newKey = () => Array.from(crypto.getRandomValues(new Uint8Array(16)),
  byte => byte.toString(16).padStart(2, '0')).join('');

/** The desk's answer to a statement: its `lines`, or in `wrong` why there are none; `isOpen` if it may have been done
 * all the same. */
async function ask(text, key, tag) {
  const found = await sendTo('/statements', text + '\n', { 'Content-Type': 'text/plain',
    Accept: 'application/x-ndjson' }, key, tag);
  if (found.told !== undefined) found.lines = found.told.trim().split('\n').map(line => JSON.parse(line));
  return found;
}

/** The desk's answer to an act or a preview: its `act`, `why_not`, `answers` and so on, or what `ask` has in `wrong`. */
async function askAct(asked, key, tag) {
  const found = await sendTo('/acts', JSON.stringify(asked), { 'Content-Type': 'application/json' }, key, tag);
  return found.told === undefined ? found : { ...JSON.parse(found.told), status: found.status, tag: found.tag };
}

/** Sends a body until it is answered, under its key, so that it is done once. */
async function sendTo(path, body, heads, key, tag) {
  const headers = { 'X-Opcplan': 'desk', ...heads };
  if (key) headers['Idempotency-Key'] = key;
  if (tag) headers['If-Match'] = tag;
  let wrong = '';
  for (const seconds of [0, ...RESTS]) {
    await pause(seconds);
    try {
      const found = await fetch(path, { method: 'POST', body, headers, redirect: 'error' });
      const told = await found.text();
      if (found.ok) {
        if (live.lost) lookAfter();
        return { status: 200, told, tag: found.headers.get('ETag') };
      }
      wrong = told.trim();
      if (found.status !== 503) return { status: found.status, wrong: sentence(found.status, wrong) };
    } catch (error) {
      wrong = error.message;
    }
    tellLink('no answer yet; the page sends the statement again');
  }
  const hint = 'Press again: the page sends it under the same key, so it is done once.';
  return { status: 0, isOpen: true, wrong: 'No answer (' + wrong + '). ' + hint };
}

/** Why nothing was done. */
function sentence(status, text) {
  if (status === 401) return 'Nothing was done: your session has ended. Reload the page to sign in.';
  if (status === 412) return 'Nothing was done: the plan has changed since you looked at it.';
  return 'Nothing was done: ' + text;
}

/** The text of a refusal, as parts. */
function refusal(reply) {
  const told = meaning(reply).slice(), [, number] = reply.split(' ');
  if (!told.length) return ['Refused: ' + reply + '.'];
  return ['Refused: ', told[0].slice(2), ...told.slice(1), ' (refused ' + number + ').'];
}

/** The text of parts that hold elements. */
const plainText = parts => parts.map(part => part?.textContent ?? part).join('');

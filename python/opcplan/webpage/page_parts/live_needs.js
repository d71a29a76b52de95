// The desk's list of what needs a person: fetched when the page begins, when the plan has changed, and every twenty
// seconds, because time goes on, and agents and others report to the desk.
const NEEDS_REST = 1000, NEEDS_EVERY = 20000;
const OLD_DESK = 'This desk is older than this page, and doesn’t list what needs a person: reload the page.';
/** What is in progress, the state of the plan for which the list was made, and why there is no newer list. */
const listing = { isOld: false, isFetching: false, resting: 0, tag: '', lost: '' };

const lifeOf = tag => tag.slice(0, tag.lastIndexOf('-')), changeOf = tag => +tag.slice(tag.lastIndexOf('-') + 1);

/** Whether the list was made before the last change, by the states of the plan that the desk names. */
const isBehind = () => listing.tag !== '' &&
  (lifeOf(listing.tag) !== lifeOf(desk.tag) || changeOf(listing.tag) < changeOf(desk.tag));

/** How the list belongs to the rows, or why there is none. */
needed.note = () => {
  if (!needed.list) return listing.lost || 'The desk is making the list.';
  const from = 'As of ' + at(momentOf(needed.list.now)), isSame = ['', desk.tag].includes(listing.tag);
  if (listing.lost) return listing.lost + ' ' + from + '.';
  if (isBehind()) return from + ', before the last change.';
  return from + (isSame && !live.isOld && !live.isFetching ? '.' : ', newer than the rows.');
};

/** Fetches the list, after a rest if it was fetched just now, and after the rows if they are being fetched. */
function fetchNeeds() {
  if (document.visibilityState !== 'visible') return;
  listing.isOld = true;
  if (!listing.isFetching && !listing.resting && !live.isFetching) fetchNeedsNow();
}

async function fetchNeedsNow() {
  Object.assign(listing, { isOld: false, isFetching: true });
  const begun = performance.now();
  await takeNeeds();
  listing.isFetching = false;
  showNeeds();
  listing.isOld ||= !listing.lost && isBehind();
  listing.resting = setTimeout(() => {
    listing.resting = 0;
    if (listing.isOld) fetchNeeds();
  }, Math.max(NEEDS_REST, 3 * (performance.now() - begun)));
}

/** Takes the list that the desk has, or why it has none. A page that keeps its moment requests that of the moment. */
async function takeNeeds() {
  const moment = desk.stands ? '?now=' + isoDay(dayOf(D.now)) + '/' + clock(D.now) : '';
  try {
    const found = await fetch('/status' + moment, { redirect: 'error' });
    if (found.ok) {
      const told = await found.json(), tag = found.headers.get('ETag')?.match(/"(.*)"/)?.[1] ?? '';
      needed.list = Array.isArray(told.needs) ? told : null;
      return void Object.assign(listing, { tag, lost: needed.list ? '' : OLD_DESK });
    }
    const why = (await found.text()).trim();
    listing.lost = found.status === 404 ? OLD_DESK : 'The list can’t be fetched: ' + why + '.';
  } catch (error) {
    listing.lost = 'The list can’t be fetched: ' + error.message + '.';
  }
}

/** Draws the list again, and leaves the place where one reads. */
function showNeeds() {
  const [focus, reading, inner] = [focusPlace(), readingPlace(), innerPlaces()];
  redraw(['#needs', '#next'], drawNeeds);
  markCurrent('.go', view.pick);
  inner();
  focus();
  reading();
}

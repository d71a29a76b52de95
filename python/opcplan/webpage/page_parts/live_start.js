// The start of the live page: adds its parts to the page, and listens.
function addLiveParts() {
  $('header .line').append(h('p', { id: 'link' }));
  if (desk.signs) {
    const leave = async () => {
      await fetch('/session', { method: 'DELETE', headers: { 'X-Opcplan': 'desk' } });
      location.reload();
    };
    $('header .line').append(h('button', { class: 'in', id: 'leave', on: leave }, 'Sign out'));
  }
  if (!may('plan')) return;
  $('#changes').before(planningSection());
  $('nav a:last-of-type').before(h('a', { href: '#planning' }, 'Planning'));
  chooseWork(true);
}

const FIRST_OF_ROW = '.acts .buttons:not(.final) button:not([disabled]), .verbs .buttons button:not([disabled])';
const FIRST_OF_BAR = '#several .buttons:not(.final) button:not([disabled])';

/** Whether the key leads to the bar of several rows: from one of these, or if no row has a card. */
function isForBar() {
  const { activeElement } = document, isOfThese = activeElement.closest('#several, [aria-selected="true"]') !== null;
  return several.serials.size > 0 && (isOfThese || view.pick < 0 && view.app < 0);
}

/** Takes the key that leads to the buttons of the chosen row, or of several: to the first one that can be undone, or
 * that first shows what it would do, so that Enter does nothing for good. */
function onActKey(event) {
  const isPlain = !event.ctrlKey && !event.metaKey && !event.altKey;
  const inField_ = event.target.matches('input, select, textarea') && !event.target.matches('[type=checkbox]');
  if (event.key !== 'a' || !isPlain || inField_) return;
  const [first, all] = isForBar() ? [FIRST_OF_BAR, '#several .many'] : [FIRST_OF_ROW, '#acts'];
  if (!isForBar() && !$('.acts button:not([disabled]), .verbs button:not([disabled])')) {
    return say(view.pick < 0 && view.app < 0 ? 'No row is chosen.' : 'Nothing can be done with it.');
  }
  event.preventDefault();
  ($(first) || $(all)).focus();
}

addLiveParts();
tellLink('');
if (may('operate')) {
  KEYS.splice(-1, 0, ['a', 'the buttons of the chosen row']);
  addEventListener('keydown', onActKey);
}
if (clockNow() !== D.now) drawAll(applyChanges);
else for (const [box, draw] of [['#changed', drawChanges], ['#card', showCard]]) redraw([box], draw);
fit();
hear();
fetchLately();
fetchNeeds();
addEventListener('visibilitychange', fetchNeeds);
setInterval(fetchNeeds, NEEDS_EVERY);
setInterval(() => {
  if (clockNow() !== D.now) drawSoon();
  if (Date.now() - live.begun > HOUR) fetchRows();  // other days are shown by then
}, 5000);
setInterval(lookAfter, 20000);

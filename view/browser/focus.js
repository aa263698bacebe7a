// The focus of who works by keys. Each draw makes new elements, and with the old ones the focus would be lost.

const REDRAWN = '#lanes, #step, #owed, #marks, #why, #firings-table';
const spokenName = element => element.getAttribute('aria-label') || element.textContent;

function namesakes(box, name) {
  return [...box.querySelectorAll('button, [role=button]')].filter(element => spokenName(element) === name);
}

// The focus goes on to the new element in the same box with the same name, or to the heading over the box.
function keepFocus(redraw) {
  const old = document.activeElement;
  const box = old ? old.closest(REDRAWN) : null;
  const name = box ? spokenName(old) : '';
  const which = box ? namesakes(box, name).indexOf(old) : -1;
  redraw();
  if (!box || old.isConnected) return;
  const heading = box.closest('section').querySelector('h2');
  heading.tabIndex = -1;
  (namesakes(box, name)[which] || heading).focus({ preventScroll: true });
}

// All bars together are one stop of the Tab key, and arrows walk on from there: a bar that has the focus is the stop.
function setTabStop(number) {
  const lanes = byId('lanes');
  const before = lanes.querySelector('.firing[tabindex="0"]');
  const stop = ['.firing[data-f="' + number + '"]', '.firing.sel', '.firing']
    .map(wanted => lanes.querySelector(wanted)).find(bar => bar);
  if (before) before.setAttribute('tabindex', -1);
  if (stop) stop.setAttribute('tabindex', 0);
}

// Left and right walk in the order of the starts, up and down to the nearest start in another lane.
function neighbourOf(bar, key) {
  const bars = [...byId('lanes').querySelectorAll('.firing')];
  const sideways = { ArrowLeft: -1, ArrowRight: 1 }[key];
  if (sideways) return bars[bars.indexOf(bar) + sideways];
  const lanes = { ArrowUp: -1, ArrowDown: 1 }[key];
  const here = firings[bar.dataset.f];
  for (let activity = here.activity + lanes; activity >= 0 && activity < activityCount; activity += lanes) {
    const inLane = bars.filter(other => firings[other.dataset.f].activity === activity);
    const away = other => Math.abs(firings[other.dataset.f].startEvent - here.startEvent);
    if (inLane.length) return inLane.reduce((nearest, other) => away(other) < away(nearest) ? other : nearest);
  }
  return undefined;
}

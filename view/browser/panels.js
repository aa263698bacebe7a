// The panels under the picture: the events of the tick looked at, what had to happen, what ran, and the tokens.

const MOST_EVENTS = 40;
const MOST_RUNNING = 20;
const MOST_MAKERS = 5;
const BORDER_WORDS = 'Starts begin: from here on only what started at this tick may end';

const linkTo = firing => link(quoted(nameOf(firing.activity)), () => goTo(choiceOfFiring(firing)));

// The events of the step, in the log's order. One leads to the moment just after it, if the engine was asked there.
function drawEvents() {
  const count = countNow();
  const column = columnOf[count];
  const border = firstStartOf(column);
  const end = Math.min(closes(column) + 1, eventCount);
  const from = clamp(count - MOST_EVENTS / 2, opens[column], Math.max(opens[column], end - MOST_EVENTS));
  const to = Math.min(end, from + MOST_EVENTS);
  const items = [];
  if (from > opens[column]) items.push(remark(plural(from - opens[column], 'earlier event') + ' of this tick'));
  for (let event = from; event < to; event++) {
    if (event === border) items.push(remark(BORDER_WORDS, 'border'));
    items.push(eventItem(event, count));
  }
  if (to < end) items.push(remark(plural(end - to, 'later event') + ' of this tick'));
  byId('step-h').textContent = 'Events at tick ' + column;
  byId('step').replaceChildren(...items.length ? items : [remark('none')]);
}

const remark = (words, kind = '') => html('li', { class: ('remark ' + kind).trim() }, words);

function eventItem(event, count) {
  const states = [isRefused(event) && 'fault', isUnchecked(event) && 'after', event === count - 1 && 'here',
    event === count && 'now'];
  const words = eventWords(event) + (isRefused(event) ? ' \u2715 refused' : isUnchecked(event) ? ' (not checked)' : '');
  const canGo = event < data.done && isAsked(event + 1);
  return html('li', { class: states.filter(state => state).join(' '), 'aria-current': event === count - 1 },
    canGo ? link(words, () => lookAt(momentUpTo(event + 1))) : html('span', {}, words),
    html('span', { class: 'no' }, 'event ' + event));
}

// A long list scrolls by itself, never the page: a few items above the moment come to its top.
function scrollEvents() {
  const items = [...byId('step').children];
  const at = items.findIndex(item => item.matches('.now, .here'));
  byId('step').scrollTop = at > 4 ? items[at - 3].offsetTop : 0;
}

function drawOwed() {
  const { starts, ends, standing } = owedNow();
  const items = [...ends.map(owedEndItem), ...starts.map(owedStartItem)];
  const nothing = standing === 3 ? 'Nothing: time may pass.' : 'Nothing: the page is at rest.';
  byId('owed').replaceChildren(
    items.length ? html('ul', { class: 'owedlist' }, items) : html('p', {}, nothing),
    html('h3', {}, 'Running'),
    runningList());
}

function owedStartItem(activity) {
  return html('li', {}, link(quoted(nameOf(activity)), () => goTo(choiceOfStart(activity, view.moment))),
    ' had to start before the next tick (or its tokens be taken by another)');
}

function owedEndItem(activity) {
  const due = dueAt(countNow(), activity);
  return html('li', {}, due.length ? linkTo(due[0]) : quoted(nameOf(activity)), dueWords(activity, due.length));
}

function runningList() {
  const runs = runsAt(view.moment);
  if (!runs) return html('p', {}, NOT_FOLLOWED);
  if (!runs.length) return html('p', {}, 'nothing');
  const items = runs.slice(0, MOST_RUNNING).map(({ activity, age, count, firing }) =>
    [timesWords(count), firing ? linkTo(firing) : quoted(nameOf(activity)),
      ' for ' + plural(age, 'tick') + ' (' + lasting(activity) + ')']);
  if (runs.length > MOST_RUNNING) items.push(['and ' + (runs.length - MOST_RUNNING) + ' more']);
  return bullets(items);
}

// What runs, by activity and age. Where firings are not followed the engine's counts are there for the last moment
// only, and null stands for the others.
function runsAt(moment) {
  if (!data.followed) {
    return moment === lastMoment ? data.running.map(([activity, age, count]) => ({ activity, age, count })) : null;
  }
  const column = columnOfMoment(moment);
  const alike = grouped(runningAt(moments[moment]), firing => firing.activity + '/' + firing.startTick);
  return [...alike.values()].map(([firing, ...others]) =>
    ({ activity: firing.activity, age: column - firing.startTick, count: 1 + others.length, firing }));
}

function drawTokens() {
  const rows = [];
  for (let place = 0; place < placeCount; place++) {
    const now = tokensIn(place, view.moment);
    const before = view.moment ? tokensIn(place, view.moment - 1) : now;
    if (now || before || view.emptyPlaces) rows.push(placeRow(place, now, before));
  }
  const none = html('tr', {}, html('td', { colspan: 3 }, 'no tokens anywhere'));
  byId('marks').tBodies[0].replaceChildren(...rows.length ? rows : [none]);
  byId('empties').setAttribute('aria-pressed', view.emptyPlaces);
}

function placeRow(place, now, before) {
  const hasChanged = now !== before;
  return html('tr', { class: hasChanged ? 'changed' : '' },
    html('th', { scope: 'row' }, data.places[place]),
    html('td', {}, now + (hasChanged ? ' (was ' + before + ')' : '')),
    html('td', {}, html('ul', { class: 'made' }, makersOf(place, now).map(words => html('li', {}, words)))));
}

function makersOf(place, now) {
  if (!data.followed) return now ? ['not followed'] : [];
  const alike = grouped(tokensThere(place, countNow()), token =>
    token.maker ? token.maker.activity + '/' + token.maker.endTick : '');
  const made = [...alike.values()].slice(0, MOST_MAKERS).map(group => {
    const { maker } = group[0];
    return [timesWords(countOf(group)),
      maker ? [linkTo(maker), ' at tick ' + maker.endTick] : 'there from the beginning'];
  });
  return alike.size > MOST_MAKERS ? [...made, 'and others'] : made;
}

// The picture once more as a table, for screen readers and for copying: what had to happen at the moment looked at,
// the fault, what ran, and what was not checked.

const MOST_TABLE_ROWS = 300;

function drawFiringsTable(plan) {
  const headings = ['Activity', 'Started at tick', 'Ended at tick', 'Took', 'Allowed', 'Remark'];
  const caption = 'Ticks ' + view.from + ' to ' + (view.from + shownColumns() - 1) + ' (event numbers in brackets). ' +
    'The moment looked at: ' + momentWords(view.moment) + '.';
  const bars = [...plan.firings, ...plan.ghosts];
  const rows = bars.slice(0, MOST_TABLE_ROWS).map(bar => isGhost(bar) ? ghostRow(bar) : firingRow(plan, bar));
  const more = bars.length - rows.length;
  byId('firings-table').replaceChildren(
    table(caption, headings, [...owedRows(), ...faultRows(), ...rows]),
    more > 0 ? html('p', { class: 'hint' }, 'And ' + more + ' more: look closer, and they are here.') : '');
}

function owedRows() {
  const { starts, ends } = owedNow();
  const row = (activity, words) => [quoted(nameOf(activity)), '', '', '', allowed(activity), words];
  return [
    ...starts.map(activity => row(activity, 'had to start, at the moment looked at')),
    ...ends.map(activity => row(activity, 'had to end, at the moment looked at')),
  ];
}

function faultRows() {
  if (!broken || !isShown(columnOf[data.done])) return [];
  const isNamed = kindOf(data.done) === 'start' || kindOf(data.done) === 'end';
  const what = isNamed ? quoted(nameOf(activityOf(data.done))) : kindOf(data.done) === 'tick' ? 'a tick' : 'no event';
  const where = tickAndEvent(columnOf[data.done], data.done);
  return [[what, '', '', '', '', '\u2715 refused at tick ' + where + ': ' + eventWords(data.done)]];
}

const tickAndEvent = (tick, event) => tick + ' (event ' + event + ')';

function firingRow(plan, firing) {
  const { startEvent, endEvent } = firing;
  const start = startEvent < 0 ? firing.startTick + ' (before the log)' : tickAndEvent(firing.startTick, startEvent);
  const end = isRunning(firing) ? 'still running' : tickAndEvent(firing.endTick, endEvent);
  const took = isRunning(firing) ? '' : String(ticksTaken(firing));
  const choice = isChosen(firing) ? 'chosen' : plan.causes.has(firing) ? 'led to the chosen one' : '';
  return [linkTo(firing), start, end, took, allowed(firing.activity), choice];
}

function ghostRow(ghost) {
  const { startEvent, endEvent, goesOn } = ghost;
  const start = ghost.isLone ? 'nowhere' : goesOn ? goesOn.startTick + ' (checked, see above)'
    : tickAndEvent(columnOf[startEvent], startEvent);
  const end = endEvent < 0 ? 'nowhere' : tickAndEvent(columnOf[endEvent], endEvent);
  const took = endEvent < 0 ? '' : String(ageOf(endEvent));
  return [quoted(nameOf(ghost.activity)), start, end, took, allowed(ghost.activity), 'not checked'];
}

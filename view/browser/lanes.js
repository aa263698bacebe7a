// The plan of the picture: what is in sight, which activities have a lane, and where the lanes stand from top to
// bottom. The files that draw take all heights from here.

const TOP = 36;             // above it: the fault's flag, the numbers of the ticks, the knob of the moment
const ROW_HEIGHT = 18;      // of a bar, with the gap under it
const LANE_PADDING = 5;
const NAME_HEIGHT = 17;     // on a narrow page, where a lane's name stands above its bars
const MANY_LANES = 14;      // with more than these only some are shown
const MANY_ROWS = 6;        // with more than these a lane's bars are thin
const MOST_ROWS = 24;       // with more than these the rest share the last row

// Firings of one activity that run at the same time stand one above the other, each in the lowest row that is free.
function giveRows() {
  const freeFrom = Array.from({ length: activityCount }, () => []);     // by row: the event from which on it is free
  for (const bar of [...firings, ...ghosts]) {
    const rows = freeFrom[bar.activity];
    const free = rows.findIndex(event => event <= bar.startEvent);
    bar.row = bar.goesOn ? bar.goesOn.row : free < 0 ? rows.length : free;
    rows[bar.row] = bar.endEvent < 0 ? Infinity : bar.endEvent;
  }
}

giveRows();

function planPicture() {
  const bars = firingsInSight();
  const unchecked = ghostsInSight();
  const busy = new Set([...bars, ...unchecked].map(bar => bar.activity));
  const isPartial = busy.size > MANY_LANES && !view.allLanes;
  const causes = firingsBehindChoice();
  const wanted = activitiesWanted(busy, isPartial, causes);
  const { lanes, bottom } = layLanes(wanted, rowsNeeded([...bars, ...unchecked]));
  return {
    firings: bars,
    ghosts: unchecked,
    causes,                         // the firings that led to the choice
    borders: bordersInSight(),      // the columns whose border between ends and starts is drawn
    lanes,                          // activity -> its lane
    bottom,                         // of the last lane
    busy,                           // the activities with something in sight
    isPartial,                      // whether some of these have no lane
    quiet: [...data.activities.keys()].filter(activity => !wanted.has(activity)),
  };
}

// A firing is in sight also where only the time that it had left is.
function firingsInSight() {
  const from = view.from;
  return firingsAround(from, from + shownColumns()).filter(firing => {
    if (isRunning(firing)) return data.ticks >= from;
    const latest = Math.min(firing.startTick + data.lfd[firing.activity], data.ticks);
    return Math.max(firing.endTick, latest) >= from;
  });
}

function ghostsInSight() {
  const from = view.from;
  const to = from + shownColumns();
  return ghosts.filter(ghost =>
    columnOf[ghost.startEvent] < to && (ghost.endEvent < 0 || columnOf[ghost.endEvent] >= from));
}

// What made the tokens that the choice took, and what is in the chain behind it as far as that is shown.
function firingsBehindChoice() {
  if (!view.choice) return new Set();
  const behind = [...shownChain(view.choice.chain), ...view.choice.inputs];
  return new Set(behind.map(token => token.maker).filter(maker => maker));
}

// A small net shows every lane, so that nothing jumps. A large one shows those with something in them; and where even
// these are many, those that concern the fault, the choice and the moment, until all are asked for.
function activitiesWanted(busy, isPartial, causes) {
  if (activityCount <= MANY_LANES) return new Set(data.activities.keys());
  const concerned = activitiesConcerned(causes);
  return isPartial ? concerned : new Set([...busy, ...concerned]);
}

function activitiesConcerned(causes) {
  const { starts, ends } = owedNow();
  const running = runningAt(countNow());
  const concerned = new Set([...starts, ...ends, ...[...running, ...causes].map(firing => firing.activity)]);
  if (view.choice) concerned.add(view.choice.activity);
  if (broken && isOfThisNet(data.done)) concerned.add(activityOf(data.done));
  ghosts.slice(0, 3).forEach(ghost => concerned.add(ghost.activity));
  return concerned;
}

function rowsNeeded(bars) {
  const rows = new Array(activityCount).fill(1);
  const need = (activity, row) => { rows[activity] = Math.max(rows[activity], row + 1); };
  bars.forEach(bar => need(bar.activity, bar.row));
  owedNow().starts.forEach(activity => need(activity, freeRow(activity, view.moment)));
  if (broken && isOfThisNet(data.done)) need(activityOf(data.done), rowOfFault());
  return rows;
}

function layLanes(wanted, rowsOf) {
  const lanes = new Map();
  const head = LANE_PADDING + (isNarrow() ? NAME_HEIGHT : 0);
  let bottom = TOP;
  for (let activity = 0; activity < activityCount; activity++) {
    if (!wanted.has(activity)) continue;
    const rows = Math.min(rowsOf[activity], MOST_ROWS);
    const rowHeight = rows <= MANY_ROWS ? ROW_HEIGHT : Math.max(5, Math.floor(MANY_ROWS * ROW_HEIGHT / rows));
    const height = head + rows * rowHeight + LANE_PADDING;
    const isCrowded = rowsOf[activity] > rows;
    lanes.set(activity, { activity, top: bottom, height, firstRow: bottom + head, rows, rowHeight, isCrowded });
    bottom += height;
  }
  return { lanes, bottom };
}

const topOfRow = (lane, row) => lane.firstRow + Math.min(row, lane.rows - 1) * lane.rowHeight;
const middleOfRow = (lane, row) => topOfRow(lane, row) + lane.rowHeight / 2 - 1;

// A start that is owed stands where its bar would come: in the lowest row in which nothing runs.
function freeRow(activity, moment) {
  const running = runningAt(moments[moment]).filter(firing => firing.activity === activity);
  const taken = new Set(running.map(firing => firing.row));
  let row = 0;
  while (taken.has(row)) row++;
  return row;
}

// So does a start that was refused. An end that was refused stands at the bar that it means, if there is one.
function rowOfFault() {
  const activity = activityOf(data.done);
  if (kindOf(data.done) === 'start') return freeRow(activity, lastMoment);
  const running = runningAt(data.done).filter(firing => firing.activity === activity);
  const meant = running.find(firing => data.ticks - firing.startTick === ageOf(data.done)) || running[0];
  return meant ? meant.row : 0;
}

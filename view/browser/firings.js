// Firings (one run of an activity, from its start to its end) and tokens, followed one by one as far as the log was
// checked. Python has worked out which firing made and took which token; here they are only put where they are found
// quickly: the log may have 24,000 events, and the page looks here at each move.

// An event of -1 was never: it lies before the log (a start), or the firing still runs (an end).
const firings = data.firings.map(([activity, startEvent, endEvent, startTick, endTick], number) =>
  ({ number, activity, startEvent, endEvent, startTick, endTick, row: 0 }));

const isRunning = firing => firing.endEvent < 0;
const ticksTaken = firing => firing.endTick - firing.startTick;

// Tokens of one place that were made together and taken together are one entry with a count.
const tokens = data.tokens.map(([place, madeAt, maker, takenAt, count]) =>
  ({ place, madeAt, maker: maker < 0 ? null : firings[maker], takenAt, count }));

function grouped(things, keyOf) {
  const groups = new Map();
  for (const thing of things) {
    const key = keyOf(thing);
    if (groups.has(key)) groups.get(key).push(thing); else groups.set(key, [thing]);
  }
  return groups;
}

// In each place in the order in which tokens are taken: the oldest first.
const takenOrNever = token => token.takenAt < 0 ? eventCount : token.takenAt;
const tokensByPlace = grouped(tokens, token => token.place);
tokensByPlace.forEach(there => there.sort((a, b) => a.madeAt - b.madeAt || takenOrNever(a) - takenOrNever(b)));

const tokensByTaker = grouped(tokens.filter(token => token.takenAt >= 0), token => token.takenAt);
const tokensByMaker = grouped(tokens.filter(token => token.maker), token => token.maker);
const firingByStart = new Map(firings.map(firing => [firing.startEvent, firing]));

const countOf = found => found.reduce((sum, token) => sum + token.count, 0);
const tokensTakenBy = firing => firing.startEvent < 0 ? [] : tokensByTaker.get(firing.startEvent) || [];
const tokensMadeBy = firing => tokensByMaker.get(firing) || [];

function tokensThere(place, count) {
  return (tokensByPlace.get(place) || []).filter(token => token.madeAt < count && takenOrNever(token) >= count);
}

// Firings stand in the order of their starts. So those that may run at some tick stand together: none lasts longer
// than the longest time of all activities. What runs when the log begins counts as started in column 0.
const longestTime = Math.max(0, ...data.lfd);
const startColumn = firing => Math.max(0, firing.startTick);
const firstStartedIn = new Int32Array(columnCount + 1);
for (let column = 0, number = 0; column <= columnCount; column++) {
  while (number < firings.length && startColumn(firings[number]) < column) number++;
  firstStartedIn[column] = number;
}

// All that ran in the columns from `from` on and before `to`, and perhaps some that ended earlier.
function firingsAround(from, to) {
  return firings.slice(firstStartedIn[Math.max(0, from - longestTime)], firstStartedIn[Math.min(columnCount, to)]);
}

function runningAt(count) {
  const column = columnOf[count];
  return firingsAround(column, column + 1).filter(firing =>
    firing.startEvent < count && (isRunning(firing) || firing.endEvent >= count));
}

// The firings of an activity that are at their longest time: these have to end.
function dueAt(count, activity) {
  return runningAt(count).filter(firing =>
    firing.activity === activity && columnOf[count] - firing.startTick === data.lfd[activity]);
}

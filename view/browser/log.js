// The log as the box wrote it: what each event says, and which step it belongs to.
//
// Column c of the picture is step c of the log: the events behind the c-th tick and before the next. That next tick
// is the column's right edge. Events are counted from 0; event `data.done` is the refused one where a rule was broken.

const data = JSON.parse(byId('data').textContent);

const placeCount = data.places.length;
const activityCount = data.activities.length;
const eventCount = data.events.length / 2;
const broken = data.number !== 0;

function kindOf(event) {
  const first = data.events[2 * event];
  const second = data.events[2 * event + 1];
  if (first === 0 && second === 0) return 'tick';
  if (first >= 1 && first <= 64 && second === 0) return 'start';
  return first >= 65 && first <= 128 ? 'end' : 'nothing';
}

// Both for a start or an end only. A box may name an activity that its net does not have.
const activityOf = event => data.events[2 * event] - (kindOf(event) === 'start' ? 1 : 65);
const ageOf = event => data.events[2 * event + 1];

function isOfThisNet(event) {
  const kind = kindOf(event);
  return (kind === 'start' || kind === 'end') && activityOf(event) < activityCount;
}

const isRefused = event => broken && event === data.done;
const isUnchecked = event => broken && event > data.done;

// The column of each event; and, as an event is counted like the moment just before it, the column of each moment.
const columnOf = new Int32Array(eventCount + 1);
// The first event of each column.
const opens = [0];
for (let event = 0; event < eventCount; event++) {
  columnOf[event] = opens.length - 1;
  if (kindOf(event) === 'tick') opens.push(event + 1);
}
columnOf[eventCount] = opens.length - 1;
const columnCount = opens.length;

// The tick that closes a column, or the end of the log.
const closes = column => column + 1 < columnCount ? opens[column + 1] - 1 : eventCount;

// A step opens with the ends of what started at earlier ticks. From its first start on, only what started at this
// very tick may end. This is the event where that border is crossed, or -1 in a step without a start. A log may begin
// in the middle of a step, behind its border.
function firstStartOf(column) {
  if (column === 0 && data.started) return 0;
  for (let event = opens[column]; event < closes(column); event++) {
    if (kindOf(event) === 'start') return event;
  }
  return -1;
}

// Whether a step has something on either side of that border: an end that may only come before it, and a start.
function hasBorder(column) {
  if (firstStartOf(column) < 0) return false;
  for (let event = opens[column]; event < closes(column); event++) {
    if (kindOf(event) === 'end' && ageOf(event) > 0) return true;
  }
  return false;
}

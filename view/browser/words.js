// The words for people. A transition is an activity here; what was enabled had to start; what had run its longest
// time had to end.

const plural = (number, one, more) => number + ' ' + (number === 1 ? one : more || one + 's');
const timesWords = number => number > 1 ? number + ' \u00d7 ' : '';
const quoted = name => '\u201c' + name + '\u201d';

// A name with letters that run from right to left, or with signs that turn the direction, would turn the words around
// it as well. Such a name is shut in between two signs that are not seen.
const TURNS = /[\u0590-\u08ff\u200e\u200f\u202a-\u202e\u2066-\u2069\ufb1d-\ufdff\ufe70-\ufefc]/;
const isolated = name => TURNS.test(name) ? '\u2068' + name + '\u2069' : name;

const placeName = place => isolated(data.places[place]);

function nameOf(activity) {
  return activity < activityCount ? isolated(data.activities[activity]) : 'activity ' + activity + ' (not in this net)';
}

const tokensInWords = (count, place) => plural(count, 'token') + ' in ' + quoted(placeName(place));

const NOT_FOLLOWED = 'More than 1,000 activities ran when the log began, and single ones are not followed.';

function lasting(activity) {
  const shortest = data.sfd[activity];
  const longest = data.lfd[activity];
  if (longest === 0) return 'takes no time';
  return 'takes ' + (shortest === longest ? 'exactly ' : shortest + ' to ') + plural(longest, 'tick');
}

const allowed = activity => data.sfd[activity] + '..' + data.lfd[activity];

function eventWords(event) {
  const kind = kindOf(event);
  if (kind === 'tick') return 'time passes: one tick';
  if (kind === 'nothing') return 'bytes that are no event';
  const name = quoted(nameOf(activityOf(event)));
  if (kind === 'start') return name + ' starts';
  return name + ' ends ' + (ageOf(event) ? 'after ' + plural(ageOf(event), 'tick') : 'at once');
}

function ranWords(firing) {
  const { startTick, endTick } = firing;
  const since = startTick < 0 ? plural(-startTick, 'tick') + ' before the log' : 'tick ' + startTick;
  if (isRunning(firing)) return 'running since ' + since;
  if (startTick === endTick) return 'at ' + since;
  const ticks = startTick < 0 ? 'from ' + since + ' to tick ' + endTick : 'ticks ' + startTick + ' to ' + endTick;
  return ticks + ', took ' + plural(ticksTaken(firing), 'tick');
}

const firingWords = firing =>
  quoted(nameOf(firing.activity)) + ', ' + ranWords(firing) + ' (' + lasting(firing.activity) + ')';

function ghostWords(ghost) {
  const start = ghost.goesOn || ghost.isLone ? '' : eventWords(ghost.startEvent);
  const end = ghost.endEvent < 0 ? '' : eventWords(ghost.endEvent);
  return 'not checked: ' + [start, end].filter(words => words).join('; ');
}

function momentWords(moment) {
  const count = moments[moment];
  const after = count === 0 ? 'no event' : count + ' of ' + plural(eventCount, 'event');
  return 'Tick ' + columnOf[count] + ', after ' + after + momentRemark(count);
}

function momentRemark(count) {
  if (isRefused(count)) return ' \u2014 just before the fault';
  return count === eventCount ? ' \u2014 the end of the log' : '';
}

// An end that is owed comes before every start of its step, unless the activity takes no time.
function dueWords(activity, times) {
  const longest = data.lfd[activity];
  const often = times > 1 ? ' (' + times + ' of them)' : '';
  if (longest === 0) return often + ' had to end before the next tick: it takes no time';
  return often + ' had to end before any start and before the next tick: it had run for ' +
    plural(longest, 'tick') + ', its longest time';
}

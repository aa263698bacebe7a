// What the box wrote after the fault. Nobody has checked it, so nothing is known of tokens or rules there: a start and
// an end belong together where the box's own words say so. An end with age 2 ends what started two ticks before.
//
// A ghost is what is drawn of it, with a dashed line. It `goesOn` from a firing that was checked, if it ends one; it
// `isLone` where the box ended what it had never started. The refused event itself is no ghost.

const ghosts = broken ? pairByAges() : [];

function pairByAges() {
  const found = [];
  const open = new Map();       // 'activity/column of the start' -> what started there and has not ended, oldest first
  const openedAt = (activity, column) => {
    const key = activity + '/' + column;
    if (!open.has(key)) open.set(key, []);
    return open.get(key);
  };
  firings.filter(isRunning).forEach(firing => openedAt(firing.activity, firing.startTick).push(firing));
  for (let event = data.done + 1; event < eventCount; event++) {
    if (!isOfThisNet(event)) continue;
    if (kindOf(event) === 'start') {
      const ghost = makeGhost(event, -1, null);
      openedAt(ghost.activity, columnOf[event]).push(ghost);
      found.push(ghost);
    } else {
      const started = openedAt(activityOf(event), columnOf[event] - ageOf(event)).shift();
      if (started && isGhost(started)) started.endEvent = event;
      else found.push(started ? makeGhost(data.done, event, started) : makeGhost(event, event, null));
    }
  }
  return found;
}

function makeGhost(startEvent, endEvent, goesOn) {
  const activity = activityOf(goesOn ? endEvent : startEvent);
  return { activity, startEvent, endEvent, goesOn, isLone: startEvent === endEvent, row: 0 };
}

function isGhost(bar) {
  return 'goesOn' in bar;
}

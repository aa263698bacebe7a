// Everything that can change on the page stands in this one object. show() changes it and draws the page anew, and
// nothing else draws.
//
// A function named draw... puts something on the page. What only makes shapes or lines is named by what it makes.

const view = {
  moment: lastMoment,     // the moment looked at
  choice: null,           // the firing or owed start whose causes are shown
  tabStop: -1,            // the number of the firing whose bar Tab comes to
  width: 1000,            // of the picture, in pixels
  wished: 0,              // how many columns the picture should have; 0: as many as are read well
  from: 0,                // the first column of the picture
  allLanes: false,        // a large net: every lane with something in it
  allCauses: false,       // a long chain of causes: more than the last few
  emptyPlaces: false,     // places without tokens as well
};

// Of the moment looked at: how many events had happened, in which column it stands, what was owed.
const countNow = () => moments[view.moment];
const columnNow = () => columnOfMoment(view.moment);
const owedNow = () => owedAt(view.moment);
const isOwedNow = activity => owedNow().starts.includes(activity) || owedNow().ends.includes(activity);

const clamp = (value, least, most) => Math.max(least, Math.min(most, value));

function show(changes) {
  Object.assign(view, changes);
  view.from = clamp(Math.round(view.from), 0, columnCount - shownColumns());
  draw();
}

function draw() {
  keepFocus(() => {
    const plan = planPicture();
    drawOnChange('overview', [...whatIsShown(), columnNow()], drawOverview);
    drawTimeline(plan);
    drawOnChange('key', [plan.borders.length > 0], () => drawKey(plan));
    drawSteering();
    drawEvents();
    drawOwed();
    drawTokens();
    drawOnChange('why', [view.choice, view.allCauses], drawWhy);
    drawNet();
    drawFiringsTable(plan);
    scrollEvents();         // these two ask where things stand: once all is drawn, the browser lays it out once
    scrollNet();
  });
}

// Draws a part of the page, unless nothing that it shows has changed since it was drawn. The parts that take long do
// not change when one moves by an event.
const shownBy = new Map();
function drawOnChange(part, shows, drawPart) {
  const last = shownBy.get(part);
  if (last && last.every((value, at) => value === shows[at])) return;
  shownBy.set(part, shows);
  drawPart();
}

// What the picture shows, whatever the moment.
const whatIsShown = () => [view.width, view.from, shownColumns(), view.choice, view.allCauses];

// The moves. Each says what it wants to see; show() does it.

const bringIn = column => isShown(column) ? view.from : centredOn(column);

function lookAt(wanted) {
  const moment = clamp(wanted, 0, lastMoment);
  show({ moment, choice: stillChosen(moment), from: bringIn(columnOfMoment(moment)) });
}

// A start that was owed was owed at its own moment only.
function stillChosen(moment) {
  const chosen = view.choice;
  return chosen && (chosen.firing || chosen.moment === moment) ? chosen : null;
}

function lookAtColumn(column) {
  lookAt(column < 0 ? 0 : closingMomentOf(Math.min(column, columnCount - 1)));
}

const moveByTicks = ticks => lookAtColumn(columnNow() + ticks);

function lookAtFault() {
  show({ moment: lastMoment, choice: stillChosen(lastMoment), from: centredOn(columnOf[data.done]) });
}

const tabStopAt = choice => choice.firing ? choice.firing.number : view.tabStop;

// In the picture: choosing what is chosen already lets it go.
function choose(choice) {
  const chosen = view.choice;
  const isSame = chosen && ['activity', 'firing', 'moment'].every(part => chosen[part] === choice[part]);
  show({ choice: isSame ? null : choice, tabStop: tabStopAt(choice) });
}

// From a link anywhere on the page: the picture comes to what is chosen, and the link leads to why.
function goTo(choice) {
  const from = choice.firing ? bringIn(startColumn(choice.firing)) : view.from;
  show({ choice, from, tabStop: tabStopAt(choice) });
  byId('why-h').focus();
}

// Closer or wider, with the moment looked at, or else the middle, staying where it is.
function zoomTo(wished) {
  const here = columnNow();
  const kept = isShown(here) ? here : view.from + shownColumns() / 2;
  const share = (kept - view.from) / shownColumns();
  show({ wished: Math.round(wished), from: kept - share * shownColumns(wished) });
}

// Opens the page, and keeps it right when the window changes, the address changes, or it is printed.
//
// All files here become one script, in the order that page.py lists, and share their names. This one comes last.

const PRINTED_WIDTH = 760;

const widthOnScreen = () => Math.max(300, Math.round(byId('lanes').clientWidth));

// Python says what to choose at first, so that the picture and the story above it tell the same.
function firstChoice() {
  const { chosen } = data;
  if (!chosen) return null;
  return 'firing' in chosen ? choiceOfFiring(firings[chosen.firing]) : choiceOfStart(chosen.start, lastMoment);
}

// An address that ends with #event=14 asks for the moment before event 14, or the nearest before that.
function momentOfAddress() {
  const found = /^#event=(\d+)$/.exec(location.hash);
  return found ? momentUpTo(Number(found[1])) : null;
}

function followAddress() {
  const goThere = () => {
    const moment = momentOfAddress();
    if (moment === null) return;
    lookAt(moment);
    byId('timeline').scrollIntoView();
  };
  goThere();
  addEventListener('hashchange', goThere);
}

function followWindow() {
  let wait = 0;
  addEventListener('resize', () => {
    clearTimeout(wait);
    wait = setTimeout(() => show({ width: widthOnScreen() }), 120);
  });
}

// On paper the picture has the paper's width, and the events stand there in words.
function followPrinter() {
  let before = null;
  addEventListener('beforeprint', () => {
    before = { from: view.from, isOpen: byId('words').open };
    byId('words').open = true;
    show({ width: PRINTED_WIDTH });
    lookAt(view.moment);
  });
  addEventListener('afterprint', () => {
    if (!before) return;
    byId('words').open = before.isOpen;
    show({ width: widthOnScreen(), from: before.from });
  });
}

function openPage() {
  byId('words').open = false;
  byId('tofault').hidden = !broken;
  byId('sparse').hidden = !someAreMissing;
  byId('sparse-from').textContent = broken ? 'the fault' : 'the end of the log';
  view.width = widthOnScreen();
  view.choice = firstChoice();
  view.from = centredOn(columnOf[data.done]);
  lookAt(lastMoment);
  steer();
  followAddress();
  followWindow();
  followPrinter();
}

// What needs the script is hidden until the page is ready. The sign must come first, as what is hidden has no width;
// but if anything fails it goes again: what stands there without a script is better than half a picture.
document.documentElement.dataset.ready = '1';
try {
  openPage();
} catch (failure) {
  delete document.documentElement.dataset.ready;
  byId('words').open = true;
  throw failure;
}

// The panel on the choice: what it took, what it gave, and what it waited for.

function drawWhy() {
  const { choice } = view;
  if (!choice) {
    byId('why-h').textContent = 'Why';
    return byId('why').replaceChildren(html('p', { class: 'hint' },
      'Choose an activity in the picture to see what it took, what it gave and what it waited for.'));
  }
  const name = quoted(nameOf(choice.activity));
  byId('why-h').textContent = 'Why ' + name + (choice.firing ? ' ran when it did' : ' had to start');
  byId('why').replaceChildren(...ranPart(choice), ...takenPart(choice), ...givenPart(choice), ...chainPart(choice));
}

function ranPart({ firing, activity }) {
  if (!firing) return [];
  const words = ranWords(firing);
  return [html('p', {}, words[0].toUpperCase() + words.slice(1) + '; it ' + lasting(activity) + '.')];
}

function takenPart({ firing, activity, inputs }) {
  const heading = html('h3', {}, firing ? 'It took' : 'It would take');
  if (!data.followed) {
    return [heading, bullets(data.takes[activity].map(([place, weight]) => tokensInWords(weight, place)))];
  }
  if (!inputs.length) return [heading, html('p', {}, 'its tokens before the log began')];
  return [heading, tokenList(inputs, ({ maker }) =>
    maker ? [', made by ', linkTo(maker), ' at tick ' + maker.endTick] : ', there from the beginning')];
}

function givenPart({ firing }) {
  if (!firing || !tokensMadeBy(firing).length) return [];
  const taken = ({ takenAt }) => {
    if (takenAt < 0) return ', not taken yet';
    const taker = firingByStart.get(takenAt);
    return [', taken by ', linkTo(taker), ' at tick ' + taker.startTick];
  };
  return [html('h3', {}, 'It gave'), tokenList(tokensMadeBy(firing), taken)];
}

// Tokens of the same place, maker and taker in one line. `behind` tells the rest of the line from one of them.
function tokenList(found, behind) {
  const alike = grouped(found, ({ place, maker, takenAt }) => [place, maker ? maker.number : '', takenAt].join('/'));
  return bullets([...alike.values()].map(group => {
    return [tokensInWords(countOf(group), group[0].place), behind(group[0])];
  }));
}

function chainPart({ firing, moment, chain }) {
  if (!chain.length) return [];
  const shown = shownChain(chain).map(token => token.maker);
  const rows = shown.map(maker =>
    [linkTo(maker), ticksOf(maker), String(ticksTaken(maker)), allowed(maker.activity)]);
  return [
    html('h3', {}, 'What it waited for, latest first'),
    html('div', { class: 'scroll' }, table('', ['Activity', 'Ticks', 'Took', 'Allowed'], rows)),
    isLong(chain) ? moreButton(chain.length) : '',
    html('p', {}, chainWords(shown, chain.length, firing ? firing.startTick : columnOfMoment(moment))),
  ];
}

function ticksOf({ startTick, endTick }) {
  if (startTick === endTick) return String(startTick);
  return startTick + (startTick < 0 ? ' to ' : '\u2013') + endTick;
}

function moreButton(length) {
  const words = length > MOST_LINKS ? 'Show the last ' + MOST_LINKS + ' of ' + length : 'Show all ' + length;
  return toggle(words, view.allCauses, () => show({ allCauses: !view.allCauses }));
}

function chainWords(shown, length, arrived) {
  const these = shown.length < length ? 'These ' + shown.length : 'These';
  const spare = shown.reduce((sum, maker) => sum + ticksTaken(maker) - data.sfd[maker.activity], 0);
  return these + ' began at tick ' + shown[shown.length - 1].startTick + ' and brought it to tick ' + arrived + '. ' +
    (spare ? 'They ran ' + plural(spare, 'tick') + ' longer than their shortest times.'
      : 'None ran longer than its shortest time.');
}

// The lines from the maker of a token to its taker: solid along what was waited for, dashed for the other tokens that
// the choice itself took.

function causeLines(plan) {
  const { choice } = view;
  if (!choice || !plan.lanes.has(choice.activity)) return [];
  const chain = shownChain(choice.chain);
  const waitedFor = chain.length ? chain[0].maker : null;
  const others = choice.inputs.filter(token => token.maker && token.maker !== waitedFor);
  const onePerMaker = [...grouped(others, token => token.maker).values()].map(([token]) => token);
  const target = choice.firing ? startOfBar(plan, choice.firing) : startOwed(plan, choice);
  return [
    ...onePerMaker.map(token => causeLine(plan, token, target, 'cause-line side')),
    ...chain.map((token, index) => {
      const taker = index === 0 ? target : startOfBar(plan, chain[index - 1].maker);
      return causeLine(plan, token, taker, 'cause-line');
    }),
  ];
}

// Nowhere, if its lane is not shown.
function startOfBar(plan, firing) {
  const lane = plan.lanes.get(firing.activity);
  return lane ? { x: spanOf(firing).start, y: middleOfRow(lane, firing.row) } : null;
}

function startOwed(plan, choice) {
  const lane = plan.lanes.get(choice.activity);
  return { x: xOfOwed(lane) - 6, y: middleOfRow(lane, freeRow(choice.activity, choice.moment)) };
}

function causeLine(plan, token, taker, kind) {
  const lane = plan.lanes.get(token.maker.activity);
  if (!lane || !taker) return [];
  const x = xOfEnd(token.maker);
  const y = middleOfRow(lane, token.maker.row);
  const fall = taker.y - y;
  const line = path(kind, 'M', x, y, 'C', x + 10, y + fall * 0.6, taker.x - 10, y + fall * 0.4, taker.x - 3, taker.y);
  line.append(svg('title', {}, quoted(placeName(token.place))));
  return [line, svg('circle', { class: 'cause-tip', cx: taker.x - 2, cy: taker.y, r: 3.2 })];
}

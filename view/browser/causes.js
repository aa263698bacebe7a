// Why something ran when it did: what it waited for.
//
// An activity can start once its last token is there. So it waited for the firing that made that token, which waited
// for its own last token, and so on. This chain is what an analyst wants: with the makers of all tokens one would soon
// have nearly every firing of the log.

function latestOf(found) {
  return found.reduce((latest, token) => latest && latest.madeAt >= token.madeAt ? latest : token, null);
}

// The tokens along the chain, latest first; each has a maker. It ends at tokens that were there from the beginning.
function chainBehind(inputs) {
  const chain = [];
  let token = latestOf(inputs);
  while (token && token.maker) {
    chain.push(token);
    token = latestOf(tokensTakenBy(token.maker));
  }
  return chain;
}

// The tokens that a start would take at a moment.
function tokensWanted(activity, count) {
  return data.takes[activity].flatMap(([place, weight]) => {
    let lacking = weight;
    const wanted = [];
    for (const token of tokensThere(place, count)) {
      if (lacking <= 0) break;
      wanted.push({ ...token, count: Math.min(lacking, token.count) });
      lacking -= token.count;
    }
    return wanted;
  });
}

// What can be chosen on the page: a firing, or a start that was owed at some moment. A choice knows its causes.
function choiceOfFiring(firing) {
  const inputs = tokensTakenBy(firing);
  return { activity: firing.activity, firing, moment: null, inputs, chain: chainBehind(inputs) };
}

function choiceOfStart(activity, moment) {
  const inputs = tokensWanted(activity, moments[moment]);
  return { activity, firing: null, moment, inputs, chain: chainBehind(inputs) };
}

// A few links are read at a glance; more are shown when asked for, up to what a page can bear.
const FEW_LINKS = 6;
const MOST_LINKS = 400;

const isLong = chain => chain.length > FEW_LINKS + 2;

function shownChain(chain) {
  return chain.slice(0, view.allCauses ? MOST_LINKS : isLong(chain) ? FEW_LINKS : chain.length);
}

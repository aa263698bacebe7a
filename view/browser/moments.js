// What the engine told of the moments it was asked about: the tokens in each place, and what had to happen.
//
// A moment is known by its number in `moments`, whose entries say how many events had happened then. On most pages
// every count has its moment. On a very long log of a large net only some have.

const moments = data.moments || Array.from({ length: data.done + 1 }, (_, count) => count);
const lastMoment = moments.length - 1;
const someAreMissing = moments.length <= data.done;

const columnOfMoment = moment => columnOf[moments[moment]];

// The last moment at which no more events had happened than `count`.
function momentUpTo(count) {
  let low = 0;
  let high = lastMoment;
  while (low < high) {
    const middle = Math.ceil((low + high) / 2);
    if (moments[middle] <= count) low = middle; else high = middle - 1;
  }
  return low;
}

const closingMomentOf = column => momentUpTo(closes(column));
const isAsked = count => moments[momentUpTo(count)] === count;

// One row of tokens for each moment, one after the other.
const markings = new Uint16Array(moments.length * placeCount);
markings.set(data.first);
data.moved.forEach((changes, before) => {
  const row = (before + 1) * placeCount;
  markings.copyWithin(row, row - placeCount, row);
  for (let at = 0; at < changes.length; at += 2) markings[row + changes[at]] = changes[at + 1];
});

const tokensIn = (place, moment) => markings[moment * placeCount + place];

// Both are lists of activities. The standing is the engine's: 3 where something runs and time may pass, 4 at rest.
function owedAt(moment) {
  const [starts, ends, standing] = data.owed[data.owes[moment]];
  return { starts, ends, standing };
}

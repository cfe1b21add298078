// What this desk knows of a bond today: its firm's trades, and the last prices on its pages. The venue tells nobody the
// trades of others. So this is no market level, and the page calls each price what it is.
import {clock, signed} from './amounts.js';
import {hasTraded, ranked} from './model.js';
import {text} from './price.js';

const unaccepted = ['sent', 'refused', 'undelivered']; // of a dealer's own quote

// Of a request that traded.
function tradeOf(request, isDealer) {
  const isBuy = (request.side === 'buy') !== isDealer;
  return {what: isBuy ? 'bought at' : 'sold at', isBuy, quantity: request.quantity, price: isDealer ? request.result : request.award.price, at: request.ended};
}

// The last quote of the firm to a request; of an investor, the best that it was shown. Undefined where there is none.
function quoteOf(request, isDealer) {
  const isBuy = request.side === 'buy';
  const quote = isDealer ? request.quotes.findLast(one => !unaccepted.includes(one.state)) : ranked(request, request.ended ?? Date.now())[0];
  const what = isDealer ? (isBuy ? 'offered' : 'bid') : isBuy ? 'best offer' : 'best bid';
  return quote && {what, price: quote.price, at: quote.at, request: request.id};
}

const later = (a, b) => !a || b.at >= a.at ? b : a;

function add(day, trade) {
  day[trade.isBuy ? 'bought' : 'sold'] += trade.quantity;
  day.trade = later(day.trade, trade);
}

function collect(requests, isDealer) {
  const bonds = new Map();
  for (const request of requests) {
    if (!bonds.has(request.bond)) bonds.set(request.bond, {bought: 0, sold: 0, trade: null, quotes: []});
    const day = bonds.get(request.bond), quote = quoteOf(request, isDealer);
    if (quote) day.quotes.push(quote);
    if (hasTraded(request)) add(day, tradeOf(request, isDealer));
  }
  return bonds;
}

// By bond: {bought, sold, trade, quotes}, where `trade` is the last one, and `quotes` has one of each request.
export const todayOf = model => model.bonds ??= collect(model.requests.values(), model.isDealer());

// What stands on the card of a request: the last trade, a quote to another request if it came later, and the net position.
export function todayWords(model, request) {
  const {bought, sold, trade, quotes} = todayOf(model).get(request.bond);
  const quote = quotes.filter(one => one.request !== request.id).reduce(later, null);
  const prices = [trade, !trade || quote?.at > trade.at ? quote : null].filter(Boolean)
    .map(({what, price, at}) => `${what} ${text(price)} (${clock(at).slice(0, 5)} UTC)`);
  if (!prices.length) return 'Here today: no other price of this bond';
  return `Here today: ${prices.join(', ')}${trade ? `. Net ${signed(bought - sold)}` : ''}`;
}

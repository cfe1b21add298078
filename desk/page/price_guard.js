// Has a trader confirm an unusual price of a dealer: by one more Enter if it is the first of a bond and side, by a
// typed word if it is far from what the firm or the trader has for the price of the bond.
import {amount, span} from './amounts.js';
import {liveQuote} from './model.js';
import {text} from './price.js';

const point = 256;
const farFromPar = 3 * point; // of a first price, where nothing else is known of the bond
const par = 100 * point;

const points = difference => `${text(Math.abs(difference))} ${Math.abs(difference) === point ? 'point' : 'points'}`;

// How old something is, as a trader says it.
function age(milliseconds) {
  const minutes = Math.floor(milliseconds / 60_000);
  return minutes < 1 ? `${span(milliseconds)} old` : minutes < 120 ? `${minutes} min old` : `${Math.floor(minutes / 60)} h old`;
}

// What a price is held against, each as {price, name}: the firm's reference, the last price on this side, the live quotes.
// What was withdrawn may have been a slip: the right price would be far from it.
function marks(model, request, moment) {
  const {bond, side, id} = request, reference = model.references[bond], last = model.lastKept(bond, side);
  const live = model.liveOf(bond).filter(one => one.id !== id).map(one => ({price: one.price, name: `your firm\u2019s live quote, ${text(one.price)}`}));
  const own = last && last.trader === model.hello.trader.name ? 'your last' : 'the last of your firm';
  return [
    ...(reference ? [{price: reference.price, name: `the reference ${text(reference.price)}, ${age(moment - reference.at)}`}] : []),
    ...(last ? [{price: last.price, name: `${own}, ${text(last.price)}`}] : []), ...live];
}

// {word: what has to be typed, or '', why: what the page asks}; null where nothing has to be confirmed.
export function questionOf(model, request, price, moment) {
  const word = request.side === 'buy' ? 'OFFER' : 'BID', most = model.distance ?? point, all = marks(model, request, moment);
  const far = all.find(mark => Math.abs(price - mark.price) > most);
  if (far) return {word, why: `${points(price - far.price)} from ${far.name}`};
  if (model.lastKept(request.bond, request.side)) return null;
  const seen = [par, ...model.pricesOf(request.bond), ...all.map(mark => mark.price)], before = model.lastPrice(request.bond, request.side);
  if (seen.every(one => Math.abs(price - one) > farFromPar)) return {word, why: `Your first price on this bond is ${points(price - par)} from 100`};
  return {word: '', why: `Your first price: ${word} ${amount(request.quantity)} ${model.bond(request.bond).name} at ${text(price)}${before === undefined ? '' : `; ${text(before)} was withdrawn`}`};
}

// Why no price can be sent, so that nobody is asked to confirm one; empty where the limits have room. The desk decides.
export function whyTooMuch(model, request) {
  const {hello: {market: {limits}, trader}, session, programs} = model;
  const own = [trader.name, ...programs.filter(one => one.trader === trader.login).map(one => one.name)];
  const isOwn = quote => own.includes(quote.trader), sum = of => model.exposureBeside(request, of) + request.quantity;
  const firms = session.exposure - (liveQuote(request) ? request.quantity : 0) + request.quantity;
  if (trader.quantity !== null && request.quantity > trader.quantity) return `The quantity is above the ${amount(trader.quantity)} that your desk allows you.`;
  if (firms > limits.exposure) return `The exposure would be ${amount(firms)} of ${amount(limits.exposure)}: withdraw another quote first.`;
  return trader.exposure !== null && sum(isOwn) > trader.exposure
    ? `Your own exposure would be ${amount(sum(isOwn))} of the ${amount(trader.exposure)} that your desk allows you.` : '';
}

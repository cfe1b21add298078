// What the page keeps of what the desk tells, and what it works out of it: positions, last prices, what a dealer is asked.
import assert from 'node:assert/strict';
import test from 'node:test';
import {load, midday} from './stand.mjs';
import {BOND, dealerHello, investorHello, offered, own, request, shown} from './samples.mjs';

const {Model, hasTraded, isOpen, isOver, liveQuote, pendingOf, ranked} = await load('model.js');
const {todayOf, todayWords} = await load('today.js');
const {questionOf, whyTooMuch} = await load('price_guard.js');

function modelOf(hello, ...requests) {
  const model = new Model();
  model.take(hello);
  model.take({t: 'session', on: true, exposure: 0, accepted: 0, open: 0, clock: 0});
  if (requests.length) model.take({t: 'requests', requests});
  return model;
}

test('a message of the desk', () => {
  const model = new Model();
  assert.deepEqual([model.isOn(), model.take(dealerHello({session: {on: true}})), model.isOn(), model.isDealer(), model.mayAct()], [false, null, true, true, true]);
  const [one, two] = [request('R1'), request('R2')];
  assert.deepEqual(model.take({t: 'requests', requests: [one]}), [one]);
  assert.deepEqual(model.fresh, [one]);
  assert.deepEqual(model.take({t: 'requests', requests: [one, two]}), [one, two]);
  assert.deepEqual(model.fresh, [two], 'what was there before is not new');
  for (const t of ['programs', 'lists', 'limits', 'references', 'time', 'of a newer desk']) {
    assert.deepEqual(model.take({t, programs: [1], lists: [{id: 'L'}], traders: [2], references: {a: 1}, distance: 5}), []);
  }
  assert.deepEqual([model.programs, [...model.lists.keys()], model.limits, model.references, model.distance], [[1], ['L'], [2], {a: 1}, 5]);
  model.take({t: 'trader', trader: {name: 'T9', mayAct: false}});
  assert.deepEqual([model.hello.trader.name, model.mayAct()], ['T9', false]);
  model.take({t: 'session', on: false});
  assert.equal(model.isOn(), false);
  for (const t of ['down', 'closed', 'login']) {
    model.take(dealerHello({session: {on: true}}));
    assert.deepEqual([model.isLinked, model.requests.size, model.lists.size, model.programs, model.references], [true, 0, 0, [], {}]);
    assert.deepEqual(model.take({t}), []);
    assert.deepEqual([model.isLinked, model.isOn()], [false, false], t);
  }
});

test('what has changed of a request', () => {
  const quotes = [own(99, {state: 'live'}), own(98), own(97)], before = request('R1', {quotes, history: [{at: 1, text: 'a'}]});
  const model = modelOf(dealerHello(), before);
  const [after] = model.take({t: 'changes', changes: [
    {id: 'R1', set: {state: 'done'}, lists: {quotes: {size: 2, items: [[1, 'b'], [2, 'c']]}}}, {id: 'R9', set: {}, lists: {}}]});
  assert.deepEqual([after.state, after.quotes, after.history, before.quotes.length], ['done', [quotes[0], 'b', 'c'], before.history, 3]);
  assert.deepEqual([model.requests.get('R1'), model.fresh, model.requests.size], [after, [], 1]);
  const shorter = model.change({id: 'R1', set: {}, lists: {quotes: {size: 1, items: []}}});
  assert.deepEqual(shorter.quotes, [quotes[0]]);
  assert.equal(model.change({id: 'R9', set: {}, lists: {}}), null);
});

test('which request is what', () => {
  assert.deepEqual(['open', 'sent', 'done', 'passed', 'refused'].map(state => isOpen({state})), [true, true, false, false, false]);
  assert.deepEqual(['open', 'done', 'cover'].map(state => hasTraded({state})), [false, true, false]);
  const live = own(99, {state: 'live'});
  assert.equal(liveQuote(request('R', {quotes: [own(98, {state: 'replaced'}), live]})), live);
  assert.equal(pendingOf(request('R', {pending: [{act: 'hit'}, {act: 'pass'}]}), 'pass').act, 'pass');
  const over = [['live', 5, 5], ['live', 6, 5], ['live', null, 5], ['hit', 1, 5]];
  assert.deepEqual(over.map(([state, valid, moment]) => isOver({state, valid}, moment)), [true, false, false, false]);
});

test('which quote is the best', () => {
  const [a, b, c, d, e] = [shown('A', 99, 1), shown('B', 98, 3), shown('C', 98, 2), shown('D', 97, 1, {state: 'gone'}), shown('E', 90, 1, {valid: midday})];
  const names = side => ranked(request('R', {side, quotes: [a, b, c, d, e]}), midday).map(one => one.dealer).join('');
  assert.deepEqual([names('buy'), names('sell')], ['CBAE', 'ACBE']);
});

test('quotes of a bond', () => {
  const quotes = [own(97, {state: 'refused'}), own(98, {state: 'undelivered'}), own(99, {state: 'withdrawn', at: 9}), own(100, {state: 'live', at: 5, trader: 'T2'})];
  const model = modelOf(dealerHello(), request('R1', {quotes}), request('R2', {side: 'sell', quotes: [own(90, {at: 7})]}), request('R3', {bond: 'OTHER', quotes: [own(50)]}));
  const prices = list => list.map(one => one.price / 256);
  assert.deepEqual([prices(model.quotesOf(BOND)), prices(model.quotesOf(BOND, 'buy')), prices(model.keptOf(BOND, 'buy'))], [[99, 100, 90], [99, 100], [100]]);
  assert.deepEqual(model.pricesOf(BOND), [100 * 256, 90 * 256]);
  assert.deepEqual([model.lastPrice(BOND, 'buy') / 256, model.lastKept(BOND, 'buy').price / 256, model.lastQuote(BOND, 'buy', 'T2').price / 256], [99, 100, 100]);
  assert.deepEqual([model.lastPrice('NONE', 'buy'), model.lastQuote(BOND, 'buy', 'T9')], [undefined, null]);
  const two = modelOf(dealerHello(), request('R1', {quotes: [own(1, {at: 5}), own(2, {at: 5})]}));
  assert.equal(two.lastPrice(BOND, 'buy') / 256, 2, 'of one moment the later one');
});

test('what stands at the venue', () => {
  const live = own(99, {state: 'live', trader: 'T1'});
  const model = modelOf(dealerHello(), request('R1', {quotes: [live], quantity: 1}), request('R2', {quotes: [own(98, {state: 'sent', trader: 'T2'})], quantity: 10}),
    request('R3', {quotes: [own(97, {state: 'ended'})], quantity: 100}), request('R4', {state: 'away', quotes: [own(96, {state: 'live'})], quantity: 1000}));
  assert.deepEqual(model.liveOf(BOND), [{id: 'R1', price: 99 * 256}]);
  assert.deepEqual(model.liveOf('OTHER'), []);
  const beside = (id, fits) => model.exposureBeside({id}, fits);
  assert.deepEqual([beside('R9', () => true), beside('R1', () => true), beside('R9', one => one.trader === 'T2'), beside('R9', () => false)], [11, 10, 10, 0]);
  assert.deepEqual([model.bond(BOND).name, model.bond('NEW')], ['Alder 4 2034', {id: 'NEW', name: 'NEW', grid: 256}]);
});

test('the day of a dealer in a bond', () => {
  const done = (id, side, quantity, price, ended, more = {}) => request(id, {side, quantity, state: 'done', result: price * 256, ended, quotes: [own(price, {state: 'hit', at: ended - 5})], ...more});
  const model = modelOf(dealerHello(), done('R1', 'buy', 3, 99, midday + 60_000), done('R2', 'sell', 5, 98, midday),
    request('R3', {quotes: [own(97, {state: 'live', at: midday + 120_000}), own(96, {state: 'refused', at: midday + 121_000})]}), request('R4', {bond: 'OTHER'}));
  const day = todayOf(model).get(BOND);
  assert.deepEqual([day.bought, day.sold, day.trade.price / 256, day.trade.what, day.quotes.map(one => [one.what, one.price / 256])],
    [5, 3, 99, 'sold at', [['offered', 99], ['bid', 98], ['offered', 97]]]);
  assert.equal(todayOf(model), todayOf(model), 'it is made once');
  assert.equal(todayWords(model, {bond: BOND, id: 'R9'}), 'Here today: sold at 99 (12:01 UTC), offered 97 (12:02 UTC). Net +2');
  assert.equal(todayWords(model, {bond: BOND, id: 'R3'}), 'Here today: sold at 99 (12:01 UTC). Net +2', 'a quote that is older than the trade is none');
  assert.equal(todayWords(model, {bond: 'OTHER', id: 'R4'}), 'Here today: no other price of this bond');
  model.take({t: 'requests', requests: [request('R6', {quotes: [own(94, {state: 'replaced', at: midday + 130_000}), own(93, {state: 'live', at: midday + 140_000}), own(92, {state: 'sent', at: midday + 150_000})]})]});
  assert.equal(todayWords(model, {bond: BOND, id: 'R9'}), 'Here today: sold at 99 (12:01 UTC), offered 93 (12:02 UTC). Net +2', 'the last one that the venue has taken');
  model.take({t: 'requests', requests: [request('R6', {quotes: [own(93, {state: 'undelivered', at: midday + 140_000})]})]});
  assert.equal(todayWords(model, {bond: BOND, id: 'R9'}), 'Here today: sold at 99 (12:01 UTC), offered 97 (12:02 UTC). Net +2', 'one that was never delivered is none');
  model.take({t: 'requests', requests: [done('R5', 'buy', 9, 95, midday + 300_000)]});
  assert.equal(todayWords(model, {bond: BOND, id: 'R9'}), 'Here today: sold at 95 (12:05 UTC). Net \u22127');
});

test('the day of an investor in a bond', () => {
  const model = modelOf(investorHello(), request('R1', {side: 'buy', state: 'done', ended: midday, award: {price: 99 * 256, dealer: 'D'}, quotes: [offered('D', 99, {state: 'hit', at: midday - 9})]}),
    request('R2', {side: 'sell', quotes: [offered('D', 98, {at: midday + 60_000}), offered('E', 97, {at: midday + 90_000})], dealers: []}));
  const day = todayOf(model).get(BOND);
  assert.deepEqual([day.bought, day.sold, day.trade.what], [2_000_000, 0, 'bought at']);
  assert.deepEqual(day.quotes.map(one => [one.what, one.price / 256]), [['best offer', 99], ['best bid', 98]]);
  assert.equal(todayWords(model, {bond: BOND, id: 'R9'}), 'Here today: bought at 99 (12:00 UTC), best bid 98 (12:01 UTC). Net +2,000,000');
});

const question = (model, price, more = {}) => questionOf(model, request('R1', more), price * 256, midday);

test('a first price asks for one more Enter', () => {
  const model = modelOf(dealerHello(), request('R1'));
  assert.deepEqual(question(model, 99.5), {word: '', why: 'Your first price: OFFER 2,000,000 Alder 4 2034 at 99.5'});
  assert.deepEqual(question(model, 103), {word: '', why: 'Your first price: OFFER 2,000,000 Alder 4 2034 at 103'});
  assert.deepEqual(question(model, 97, {side: 'sell'}), {word: '', why: 'Your first price: BID 2,000,000 Alder 4 2034 at 97'});
  assert.deepEqual(question(model, 96.5), {word: 'OFFER', why: 'Your first price on this bond is 3.5 points from 100'});
  assert.deepEqual(question(model, 103.5, {side: 'sell'}), {word: 'BID', why: 'Your first price on this bond is 3.5 points from 100'});
  model.take({t: 'requests', requests: [request('R2', {side: 'sell', quotes: [own(110)]}), request('R3', {quotes: [own(109, {state: 'withdrawn'})]})]});
  assert.deepEqual(question(model, 108), {word: '', why: 'Your first price: OFFER 2,000,000 Alder 4 2034 at 108; 109 was withdrawn'});
});

test('a price that is far off asks for a word', () => {
  const model = modelOf(dealerHello(), request('R2', {quotes: [own(99, {trader: 'T1'})]}));
  assert.equal(question(model, 100), null);
  assert.deepEqual(question(model, 100.5), {word: 'OFFER', why: '1.5 points from your last, 99'});
  model.take({t: 'requests', requests: [request('R2', {quotes: [own(99, {trader: 'T2'})]})]});
  assert.equal(question(model, 97.5).why, '1.5 points from the last of your firm, 99');
  model.take({t: 'requests', requests: [request('R3', {side: 'sell', quotes: [own(97, {state: 'live'})]})]});
  assert.equal(question(model, 99.5).why, '2.5 points from your firm\u2019s live quote, 97');
  assert.equal(question(model, 99, {id: 'R3'}), null, 'its own live quote is no mark');
  const at = milliseconds => ({t: 'references', references: {[BOND]: {price: 95 * 256, at: midday - milliseconds}}, distance: null});
  const ages = {30_000: '0:30 old', 60_000: '1 min old', 119_999: '1 min old', 7_140_000: '119 min old', 7_200_000: '2 h old', 10_799_999: '2 h old'};
  for (const [age, words] of Object.entries(ages)) {
    model.take(at(Number(age)));
    assert.equal(question(model, 98).why, `3 points from the reference 95, ${words}`);
  }
  model.take({...at(0), distance: 5 * 256});
  assert.equal(question(model, 99.5), null);
  model.take({...at(0), distance: 256 / 2});
  assert.equal(question(model, 96).why, '1 point from the reference 95, 0:00 old');
});

test('what the limits have no room for', () => {
  const model = modelOf(dealerHello(), request('R2', {quotes: [own(99, {state: 'live', trader: 'T1'})], quantity: 4e6}));
  const why = (trader, exposure, more = {}) => {
    model.hello.trader = {...model.hello.trader, ...trader};
    model.session.exposure = exposure;
    return whyTooMuch(model, request('R1', more));
  };
  const none = {quantity: null, exposure: null};
  assert.equal(why(none, 58e6), '');
  assert.equal(why(none, 58e6 + 1), 'The exposure would be 60,000,001 of 60,000,000: withdraw another quote first.');
  assert.equal(why(none, 60e6, {quotes: [own(9, {state: 'live'})]}), '', 'a live quote is replaced');
  assert.equal(why({quantity: 2e6, exposure: null}, 0), '');
  assert.equal(why({quantity: 2e6 - 1, exposure: null}, 0), 'The quantity is above the 1,999,999 that your desk allows you.');
  assert.equal(why({quantity: null, exposure: 6e6}, 0), '');
  assert.equal(why({quantity: null, exposure: 6e6 - 1}, 0), 'Your own exposure would be 6,000,000 of the 5,999,999 that your desk allows you.');
  model.hello.trader.name = 'T7';
  assert.equal(why({exposure: 6e6 - 1}, 0), '', 'a colleague\u2019s quote is none of one\u2019s own');
  model.take({t: 'programs', programs: [{name: 'T1', trader: 'ann'}, {name: 'T3', trader: 'tom'}]});
  assert.match(why({exposure: 6e6 - 1}, 0), /^Your own exposure/, 'that of a program with one\u2019s rights is');
});

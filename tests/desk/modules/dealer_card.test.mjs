// A dealer's page: a price that is sent, asked about, replaced and withdrawn, and what the card says of each.
import assert from 'node:assert/strict';
import test from 'node:test';
import {button, choose, clock, document, midday, press, type, words} from './stand.mjs';
import {BOND, dealerHello, own, request} from './samples.mjs';
import {at, card, cards, desk, seen, told} from './whole.mjs';

await desk.open(dealerHello(), request('R1'), request('R0', {quotes: [own(99, {at: midday - 100_000})], state: 'away', ended: midday - 100_000, result: 99 * 256}));
const entry = of => (of ?? card(0)).querySelector('.entry');
const echo = () => words(card(0).querySelector('.echo'));
const live = () => words(card(0).querySelector('.live'));
const quote = (more, state = {}) => desk.tells([request('R1', {quotes: [own(99.5, {state: 'live', ...more})], ...state})]);

test('what a card says of its request', () => {
  assert.equal(cards().length, 1, 'what ended a minute ago has none');
  assert.deepEqual([words(card(0).querySelector('.side')), words(card(0).querySelector('.what')), words(card(0).querySelector('.left'))],
    ['OFFER', '2,000,000  Alder 4 2034', '2:00']);
  assert.match(words(card(0)), /INV1 buys/);
  assert.equal(words(card(0).querySelector('.isin')), BOND);
  assert.deepEqual([live(), echo()], ['No live quote', 'steps of 1/256, your last 99']);
  assert.equal(entry().getAttribute('aria-label'), 'Offer for 2,000,000 Alder 4 2034');
  assert.equal(document.title, '(1) DLR1 desk');
  assert.equal(at('icon').getAttribute('href'), 'icon-1.svg');
  assert.equal(document.activeElement, entry(), 'the keys go where the work begins');
  assert.deepEqual(card(0).scrolled, {block: 'nearest'});
});

test('a price that is read back', () => {
  type(entry(), '99-16+');
  assert.equal(echo(), '= 99.515625');
  type(entry(), '99.5');
  assert.equal(echo(), '= 99-16');
  type(entry(), '99.001');
  assert.equal(echo(), 'Off the grid of 1/256: 99 or 99.00390625.');
  assert.ok(card(0).querySelector('.echo').classList.contains('why'));
  press(entry(), 'Enter');
  assert.deepEqual(desk.heard, []);
  press(entry(), 'Escape');
  assert.deepEqual([entry().value, echo()], ['', 'steps of 1/256, your last 99']);
  press(entry(), 'Enter');
  assert.equal(echo(), 'Type a price: 99.515625 or 99-16+.');
  press(entry(), 'Escape');
});

test('the last minute of a request', () => {
  const left = () => { const node = card(0).querySelector('.left'); return [words(node), node.classList.contains('soon')]; };
  const ends = milliseconds => { desk.tells([request('R1', {deadline: clock.at + milliseconds})]); return left(); };
  assert.deepEqual([ends(15_000), ends(14_999), ends(1), ends(0)], [['0:15', false], ['0:15', true], ['0:01', true], ['over', true]]);
  assert.ok(button(card(0), 'Send').disabled, 'nothing is sent behind the deadline');
  desk.tells([request('R1')]);
});

test('whose the last price was', () => {
  const before = [own(99, {at: midday - 100_000}), own(98, {at: midday - 90_000, trader: 'T2'})];
  const last = quotes => { desk.tells([request('R0', {quotes, state: 'away', ended: midday - 80_000}), request('R1')]); return echo(); };
  assert.equal(last(before), 'steps of 1/256, your last 99, your firm\u2019s 98 (T2)');
  assert.equal(last(before.slice(1)), 'steps of 1/256, your firm\u2019s 98 (T2)');
  assert.equal(last([own(97), own(96, {state: 'refused'})]), 'steps of 1/256, your last 97', 'what was refused is no price');
  assert.equal(last([own(99, {at: midday - 100_000})]), 'steps of 1/256, your last 99');
});

test('one step of the grid', () => {
  assert.ok(press(entry(), 'ArrowUp').defaultPrevented);
  assert.equal(entry().value, '99.00390625', 'from the last price');
  press(entry(), 'ArrowDown');
  press(entry(), 'ArrowDown');
  assert.equal(entry().value, '98.99609375');
  assert.ok(!press(entry(), 'x').defaultPrevented);
  press(entry(), 'Escape');
});

test('a price that is sent', () => {
  type(entry(), '99.5');
  press(entry(), 'Enter', {repeat: true});
  assert.deepEqual(desk.heard, [], 'a key that is held down sends nothing');
  choose(card(0).querySelector('.seconds'), '30');
  press(entry(), 'Enter');
  const [sent] = desk.heard;
  assert.deepEqual(sent, {do: 'quote', request: 'R1', price: 99.5 * 256, seconds: 30, replaces: '', number: sent.number});
  assert.equal(entry().value, '99.5');
  desk.answers(sent.number, 'No.');
  assert.deepEqual([entry().value, told()], ['99.5', 'No.']);
  press(entry(), 'Enter');
  desk.answers(desk.heard[0].number);
  assert.deepEqual([entry().value, card(0).querySelector('.seconds').value, told()], ['', '0', '']);
});

test('what the desk waits for', () => {
  desk.tells([request('R1', {pending: [{act: 'quote', trader: 'T1'}]})]);
  assert.deepEqual([told(), button(card(0), 'Send').disabled, button(card(0), 'Decline').disabled], ['Quote sent, not answered yet', true, true]);
  assert.equal(document.title, 'DLR1 desk', 'it wants nobody');
  quote({}, {pending: [{act: 'withdrawal', trader: 'T1'}]});
  assert.deepEqual([told(), button(card(0), 'Withdraw').disabled], ['Withdrawal sent, not answered yet', true]);
  desk.says({t: 'session', on: false, since: midday, cause: 'the line is cut', alarm: 'The venue is lost.'});
  assert.equal(told(), 'Withdrawal sent, not answered yet', 'it is drawn with the request');
  quote({}, {pending: [{act: 'withdrawal', trader: 'T1'}]});
  assert.equal(told(), 'Withdrawal not answered: it is delivered as soon as the venue is back');
  desk.tells([request('R1', {pending: [{act: 'quote', trader: 'T1'}]})]);
  assert.equal(told(), 'Quote sent, not answered. If it did not arrive, it never will');
  desk.says({...dealerHello().session});
});

test('a live quote', () => {
  quote();
  assert.deepEqual([live(), words(button(card(0), 'Replace') ?? card(0)), seen(button(card(0), 'Withdraw'))], ['Live 99.5 (99-16), to the deadline', 'Replace', true]);
  assert.equal(button(card(0), 'Decline'), undefined);
  quote({valid: midday + 30_000});
  assert.equal(live(), 'Live 99.5 (99-16), valid 0:30');
  assert.ok(card(0).querySelector('.live').classList.contains('on'));
  quote({trader: 'T2'});
  assert.equal(live(), 'Live 99.5 (99-16), by T2, to the deadline');
  quote({trader: 'T2', program: 'auto', yield: 4.5});
  assert.equal(live(), 'Live 99.5 (99-16), 4.500 %, by the program auto, to the deadline');
  quote({valid: midday});
  assert.match(live(), /^Stale 99.5 \(99-16\): since 12:00:00 UTC nobody can hit it\. It counts as exposure/);
  assert.ok(!card(0).querySelector('.live').classList.contains('on'));
  quote();
  type(entry(), '99.75');
  press(entry(), 'Enter');
  assert.equal(desk.heard[0].replaces, 'Q99.5');
  press(entry(), 'Escape');
  press(entry(), 'ArrowUp');
  assert.equal(entry().value, '99.50390625', 'from the live price');
  press(entry(), 'Escape');
  button(card(0), 'Withdraw').click();
  const [sent] = desk.heard;
  assert.deepEqual(sent, {do: 'withdraw', request: 'R1', number: sent.number});
});

test('a live quote while the venue is not connected', () => {
  desk.says({...dealerHello().session, on: false});
  quote();
  assert.equal(live(), 'Live 99.5 (99-16), to the deadline: it may still stand, and be hit');
  assert.deepEqual([button(card(0), 'Replace').disabled, button(card(0), 'Withdraw').disabled], [true, false], 'a withdrawal is never refused');
  button(card(0), 'Withdraw').click();
  assert.equal(desk.heard[0].do, 'withdraw');
  desk.says(dealerHello().session);
  quote();
  assert.equal(live(), 'Live 99.5 (99-16), to the deadline');
});

test('a price that is far off wants a typed word', () => {
  type(entry(), '95');
  press(entry(), 'Enter');
  const guard = card(0).querySelector('.guard'), word = guard.querySelector('input');
  assert.ok(seen(guard));
  assert.match(words(guard), /^4\.5 points from your last, 99\.5: type OFFER to send it$/);
  assert.equal(document.activeElement, word);
  press(word, 'Enter');
  assert.match(words(guard), /^Nothing was typed\. 4\.5 points/);
  word.value = 'BID';
  press(word, 'Enter');
  assert.match(words(guard), /^That was BID\. 4\.5 points/);
  assert.deepEqual(desk.heard, []);
  press(word, 'Escape');
  assert.deepEqual([seen(guard), document.activeElement === entry(), entry().value], [false, true, '95']);
  press(entry(), 'Enter');
  assert.equal(document.activeElement, word, 'it asks again');
  word.value = ' offer ';
  press(word, 'Enter', {repeat: true});
  assert.deepEqual(desk.heard, []);
  press(word, 'Enter');
  const [sent] = desk.heard;
  assert.deepEqual([sent.price, seen(guard)], [95 * 256, false]);
  desk.answers(sent.number);
});

test('a first price is asked about, and no press too soon answers', () => {
  desk.tells([request('R1', {state: 'away', ended: midday}), request('R2', {side: 'sell'})]);
  const second = cards().find(one => seen(entry(one)));
  type(entry(second), '99.5');
  press(entry(second), 'Enter');
  const asks = 'Your first price: BID 2,000,000 Alder 4 2034 at 99.5: Enter again if it is meant.';
  assert.equal(told(second), asks);
  clock.pass(500);
  press(entry(second), 'Enter');
  assert.equal(told(second), `That was too soon to be an answer. ${asks}`);
  type(entry(second), '99.75');
  assert.equal(told(second), '');
  press(entry(second), 'Enter');
  clock.pass(600);
  assert.deepEqual(desk.heard, []);
  press(entry(second), 'Enter');
  assert.equal(desk.heard[0].price, 99.75 * 256);
});

test('a limit that has no room is told, and nothing is sent', () => {
  const second = cards().find(one => seen(entry(one)));
  desk.says({...dealerHello().session, exposure: 59e6});
  type(entry(second), '99.75');
  press(entry(second), 'Enter');
  assert.equal(told(second), 'The exposure would be 61,000,000 of 60,000,000: withdraw another quote first.');
  assert.deepEqual(desk.heard, []);
  clock.skip(8000);
  assert.equal(told(second), '', 'it stands for a while');
  desk.says(dealerHello().session);
  press(entry(second), 'Escape');
});

test('two presses decline', () => {
  const second = cards().find(one => seen(entry(one))), decline = button(second, 'Decline');
  assert.equal(decline.getAttribute('aria-label'), 'Decline BID 2,000,000 Alder 4 2034 for INV1');
  decline.click();
  assert.match(decline.getAttribute('aria-label'), /^Confirm: Decline BID/);
  clock.pass(200);
  decline.click();
  assert.deepEqual(desk.heard, [], 'a double click is one press');
  clock.pass(100);
  press(decline, 'Escape');
  decline.click();
  assert.deepEqual(desk.heard, [], 'Escape takes the first one back');
  clock.skip(4000);
  assert.ok(!decline.classList.contains('armed'), 'a first press is forgotten');
  decline.click();
  clock.pass(300);
  decline.click();
  const [sent] = desk.heard;
  assert.deepEqual(sent, {do: 'decline', request: 'R2', number: sent.number});
  desk.tells([request('R2', {side: 'sell', declined: true, told: {at: midday, text: 'x', refusal: false}})]);
  assert.deepEqual([seen(entry(second)), told(second), document.title], [false, 'Declined, 12:00:00 UTC', 'DLR1 desk']);
});

const ended = (more = {}) => {
  desk.tells([request('R3')]);
  desk.tells([request('R3', {state: 'away', ended: midday + 5000, told: {text: 'Done away', at: midday, refusal: false}, ...more})]);
  return told();
};

test('how a request ended', () => {
  desk.tells([request('R1', {state: 'expired', ended: midday - 300_000}), request('R2', {state: 'expired', ended: midday - 300_000})]);
  clock.skip(20_000);
  assert.equal(cards().length, 0);
  assert.equal(words(at('cards')), 'No open request. One that comes is shown here.');
  assert.equal(ended(), 'Done away, 12:00:05 UTC. You did not quote.');
  assert.equal(ended({quotes: [own(99, {state: 'withdrawn'})]}), 'Done away, 12:00:05 UTC. No quote of yours was live.');
  assert.equal(ended({declined: true}), 'Done away, 12:00:05 UTC. You declined.');
  assert.equal(ended({result: 99 * 256, quotes: [own(99)]}), 'Done away, 12:00:05 UTC. Your offer was 99.');
  assert.equal(ended({result: 99 * 256, quotes: [own(99, {valid: midday})]}), 'Done away, 12:00:05 UTC. Your offer was 99, stale since 12:00:00 UTC.');
  assert.equal(ended({state: 'done', result: 99 * 256, trade: 'X1', quotes: [own(99, {state: 'hit'})]}),
    'DONE: sold 2,000,000 at 99 to INV1, 12:00:05 UTC. Trade X1.');
  assert.equal(ended({state: 'done', side: 'sell', result: 99 * 256}), 'DONE: bought 2,000,000 at 99 from INV1, 12:00:05 UTC.');
  assert.equal(ended({side: 'sell', result: 99 * 256, quotes: [own(99)]}), 'Done away, 12:00:05 UTC. Your bid was 99.');
  desk.tells([request('R5', {investor: 'INV2'})]);
  const other = cards().find(one => words(one).includes('INV2'));
  type(entry(other), '99.75');
  desk.tells([request('R5', {investor: 'INV2', state: 'expired', ended: midday + 5000, told: {text: 'Expired', at: midday, refusal: false}})]);
  assert.deepEqual([told(other), desk.heard], ['Expired, 12:00:05 UTC. You did not quote. 99.75 was not sent.', []], 'a price that is only typed is not sent');
});

// A dealer's blotter, what the desk says by itself, and a page whose desk goes and comes back.
import assert from 'node:assert/strict';
import test from 'node:test';
import {button, clock, document, midday, press, rest, Socket, window, words} from './stand.mjs';
import {SECOND, dealerHello, own, request} from './samples.mjs';
import {at, cards, desk, seen} from './whole.mjs';

const saved = [];
URL.createObjectURL = blob => { saved.push({blob}); return 'blob:x'; };
URL.revokeObjectURL = () => {};
window.HTMLAnchorElement.prototype.click = function () { saved.at(-1).name = this.download; };
const ended = (id, state, more = {}) => request(id, {state, ended: midday - 100_000 - Number(id.slice(1)), ...more});
const day = [
  ended('R1', 'done', {result: 99 * 256, trade: 'T1', quotes: [own(98, {state: 'replaced'}), own(99, {state: 'hit', trader: 'T2'})], resultYield: 4.5, settles: '2026-12-01', accrued: 1, bond: SECOND}),
  ended('R2', 'away', {declined: true}), ended('R3', 'expired', {quotes: [own(97, {state: 'withdrawn'})]}),
  ended('R4', 'cover', {quotes: [own(96, {valid: midday - 200_000})], result: 96 * 256}), ended('R5', 'away', {quotes: [own(94, {state: 'replaced'}), own(95)], side: 'sell'}),
  ended('R6', 'passed'), ended('R7', 'away', {quotes: [own(93), own(92, {state: 'refused'})]}), ended('R8', 'done', {side: 'sell', result: 91 * 256, trade: 'T8', quotes: [own(91, {state: 'hit'})]}),
  ended('R9', 'away', {told: {refusal: true, text: 'Quote 99.5 is none', at: midday}})];
await desk.open(dealerHello({session: {notice: {at: midday - 10_000, text: 'Old.', refusal: false}}}), ...day);
clock.pass(60);
const rows = () => [...at('blotter').querySelectorAll('.blotter tbody tr')];
const said = () => words(document.querySelector('.said[role=status]'));
const first = said();
const live = (id, price, more = {}) => request(id, {quotes: [own(price, {state: 'live'})], ...more});

test('the requests of a dealer\u2019s day', () => {
  const cells = row => [2, 5, 6, 7, 8].map(nth => words(row.children[nth])).join('|');
  assert.deepEqual(rows().map(cells), ['Offer|99|INV1|DONE|T2', 'Offer||INV1|Done away|', 'Offer|97|INV1|Expired|T1', 'Offer|96|INV1|Cover|T1', 'Bid|95|INV1|Done away|T1',
    'Offer||INV1|Passed|', 'Offer|93|INV1|Done away|T1', 'Bid|91|INV1|DONE|T1', 'Offer||INV1|Done away|']);
  assert.deepEqual(rows().map(row => words(row.querySelector('summary'))), ['2 quotes', 'declined', 'withdrawn', 'stale at the end', '2 quotes', 'no quote', '2 quotes', 'history', 'Quote 99.5 is none']);
  assert.equal(words(at('blotter').querySelector('.sums')), '9 requests, 2 done: bought 2,000,000, sold 2,000,000');
  assert.match(words(rows()[0]), /As a help: settles 2026-12-01, accrued 1 of 100, yield 4\.500 %/);
  assert.equal(button(rows()[0], 'Again'), undefined, 'a dealer asks nobody');
  assert.deepEqual([...at('blotter').querySelectorAll('.positions tbody tr')].map(row => [...row.children].slice(0, 4).map(words).join('|')),
    ['Birch 3 2030|0|2,000,000|\u22122,000,000', 'Alder 4 2034|2,000,000|0|+2,000,000']);
});

test('what a dealer has bought and sold of what the filter lets through', () => {
  const sums = text => { const filter = at('filter'); filter.value = text; filter.dispatchEvent(new window.Event('input', {bubbles: true})); return words(at('blotter').querySelector('.sums')); };
  assert.equal(sums('birch'), '1 of 9 requests, 1 done: bought 0, sold 2,000,000');
  assert.equal(sums('bid'), '2 of 9 requests, 1 done: bought 2,000,000, sold 0');
  assert.equal(sums('99-00'), '1 of 9 requests, 1 done: bought 0, sold 2,000,000');
  sums('');
});

test('the ticket of a dealer\u2019s trade', () => {
  const paper = at('paper'), terms = nth => { button(rows()[nth], 'Ticket').click(); paper.close(); return Object.fromEntries([...paper.querySelectorAll('dl')[0].querySelectorAll('dt')].map(dt => [words(dt), words(dt.nextSibling)])); };
  assert.deepEqual(terms(0), {Trade: 'T1', 'Traded, UTC': '2026-11-27 11:58:19', Buyer: 'INV1', Seller: 'DLR1', Bond: 'Birch 3 2030', Identifier: SECOND, Nominal: '2,000,000',
    Price: '99 (99-00)', 'Trader of DLR1': 'T2', Request: 'R1'});
  const {Buyer, Seller, Price, 'Trader of DLR1': trader} = terms(7);
  assert.deepEqual([Buyer, Seller, Price, trader], ['DLR1', 'INV1', '91 (91-00)', 'T1']);
});

test('the file of a dealer\u2019s day', async () => {
  button(at('blotter'), 'Export CSV').click();
  const {blob, name} = saved.pop(), [head, first, second] = (await blob.text()).split('\r\n');
  assert.deepEqual([name, head.split(',').slice(7, 14)], ['DLR1-20261127.csv', ['price', 'counterparty', 'result', 'trader', 'trade', 'last_quote', 'note']]);
  assert.deepEqual([first.split(',').slice(7, 14), second.split(',').slice(7, 14)], [['99', 'INV1', 'DONE', 'T2', 'T1', '99', '2 quotes'], ['', 'INV1', 'Done away', '', '', '', 'declined']]);
});

test('a hundred rows at first', () => {
  const others = Array.from({length: 95}, (_, nth) => ended(`M${nth}`, 'passed', {bond: SECOND})), more = at('blotter').querySelector('.more');
  desk.tells(others.slice(0, 91));
  clock.pass(60);
  assert.deepEqual([rows().length, seen(more)], [100, false]);
  desk.tells(others);
  clock.pass(60);
  assert.deepEqual([rows().length, words(more)], [100, 'Show 4 more of 104']);
  more.click();
  assert.deepEqual([rows().length, seen(more)], [104, false]);
  desk.tells(Array.from({length: 1000}, (_, nth) => ended(`H${nth}`, 'passed', {bond: SECOND})));
  clock.pass(60);
  const counts = () => [words(at('blotter').querySelector('.sums')).split(':')[0], words(more)];
  assert.deepEqual(counts(), ['1,104 requests, 2 done', 'Show 100 more of 1,104']);
});

test('what the head says of its numbers', () => {
  assert.match(at('top').querySelector('.counts').title, /^Exposure: the nominal of all live quotes of the firm/);
});

test('what the desk says by itself', () => {
  const notice = (text, more = {}) => desk.says({...dealerHello().session, notice: {at: clock.at, text, refusal: false, ...more}});
  assert.equal(first, '', 'what it said before this page was opened is no news');
  notice('Cancelled.');
  assert.deepEqual([said(), document.querySelector('.said[role=status]').classList.contains('why')], ['Cancelled.', false]);
  clock.skip(8001);
  notice('Cancelled.', {at: clock.at - 8001});
  assert.equal(said(), '', 'it is said once');
  notice('Refused.', {at: clock.at - 8001, refusal: true});
  assert.deepEqual([said(), document.querySelector('.said[role=status]').classList.contains('why')], ['Refused.', true], 'two may come within a millisecond');
  clock.skip(8001);
});

test('how many wait for somebody', () => {
  const many = Array.from({length: 10}, (_, nth) => request(`W${nth}`, {deadline: clock.at + 600_000}));
  desk.tells(many.slice(0, 9));
  assert.deepEqual([document.title, at('icon').getAttribute('href')], ['(9) DLR1 desk', 'icon-9.svg']);
  desk.tells(many);
  assert.deepEqual([document.title, at('icon').getAttribute('href')], ['(10) DLR1 desk', 'icon-more.svg']);
  desk.tells(many.map(one => ({...one, state: 'passed', ended: midday - 100_000})));
  assert.equal(at('icon').getAttribute('href'), 'icon.svg');
  clock.skip(12_000);
});

test('a desk that goes and comes back', async () => {
  desk.tells([live('L1', 99, {deadline: clock.at + 600_000}), live('L2', 98, {deadline: clock.at + 600_000})]);
  const entry = () => cards()[1].querySelector('.entry');
  entry().focus();
  desk.socket.onclose({code: 1006});
  await rest();
  assert.equal(words(at('top').querySelector('.light')), '\u25cb No connection to the desk: trying');
  assert.match(words(at('alarm')), /Withdraw and Cancel all can\u2019t be sent: the desk does not answer\. To cancel them now, call the venue\u2019s operator\.$/);
  assert.equal(at('cancelall').getAttribute('aria-disabled'), 'true');
  const withdraws = () => cards().slice(0, 2).map(one => button(one, 'Withdraw').getAttribute('aria-disabled'));
  clock.pass(500);
  assert.deepEqual(withdraws(), ['true', 'true'], 'a withdrawal can\u2019t be sent, and its button looks so');
  press(document.body, 'F9');
  assert.equal(said(), 'No connection to the desk: nothing was sent.');
  clock.pass(500);
  Socket.last.onopen();
  desk.says(dealerHello());
  desk.says(dealerHello().session);
  desk.tells([live('L1', 99, {deadline: clock.at + 600_000}), live('L2', 98, {deadline: clock.at + 600_000})], true);
  assert.deepEqual([document.activeElement, at('cancelall').getAttribute('aria-disabled'), ...withdraws()], [entry(), null, null, null], 'the keys are where they were');
  assert.equal(location.reloads, undefined);
});

test('a page that was closed', async () => {
  desk.says({t: 'closed', why: 'You have opened too many pages.'});
  assert.equal(words(at('top').querySelector('.light')), '\u25cb This page is closed');
  assert.match(words(at('alarm')), /^You have opened too many pages\. Reload it to go on here\./);
  desk.says(dealerHello());
});

test('another market or trader makes another page', () => {
  const {trader} = dealerHello();
  desk.says({t: 'trader', trader: {...trader, quantity: 5}});
  desk.says(dealerHello({trader: {...trader, quantity: 5}}));
  assert.equal(location.reloads, undefined, 'limits that are told change no part');
  desk.says(dealerHello({firm: 'DLR2'}));
  assert.equal(location.reloads, 1);
  const {market} = dealerHello(), same = {trader: {...trader, quantity: 5}};
  desk.says(dealerHello({...same, market: {...market, bonds: market.bonds.slice(1)}}));
  assert.equal(location.reloads, 2);
  desk.says(dealerHello());
  assert.equal(location.reloads, 3);
});

test('who has no login any more', () => {
  desk.says({t: 'login'});
  assert.equal(location.reloads, 4, 'nothing of the day stays in the page');
});

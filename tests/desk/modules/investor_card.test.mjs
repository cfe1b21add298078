// An investor's page: quotes, the two presses of a hit, what takes a first press back, and how a request ended.
import assert from 'node:assert/strict';
import test from 'node:test';
import {button, clock, document, midday, press, words} from './stand.mjs';
import {asked, investorHello, offered} from './samples.mjs';
import {at, card, cards, desk, seen, told} from './whole.mjs';

await desk.open(investorHello(), asked('R1'));
const dealers = (...quoted) => ['DLR1', 'DLR2', 'DLR3'].map(name => ({name, answer: quoted.includes(name) ? 'quoted' : 'none'}));
const quotes = (list, more = {}) => desk.tells([asked('R1', {quotes: list, dealers: dealers(...list.map(one => one.dealer)), ...more})]);
const rows = () => [...card(0).querySelectorAll('tbody tr')].map(row => [...row.children].slice(0, 4).map(words).join(' ').trim().replaceAll(/ +/g, ' '));
const plain = () => rows().map(row => row.replace(/[\u25b2\u25bc] /, ''));
const state = () => words(card(0).querySelector('.foot .quiet'));
const hit = name => [...card(0).querySelectorAll('button.hit')].find(one => seen(one) && one.getAttribute('aria-label').includes(` ${name} `));
const armed = () => [...card(0).querySelectorAll('button.armed')].find(seen) ?? null;
// Behind a change a press has to wait.
const settle = () => clock.pass(500);

test('who has answered', () => {
  assert.deepEqual([rows(), state()], [['DLR1 waiting', 'DLR2 waiting', 'DLR3 waiting'], '0 of 3 quoted, 3 waiting']);
  assert.deepEqual([words(card(0).querySelector('.side')), words(card(0).querySelector('th.quoted'))], ['BUY', 'Offer']);
  assert.equal(document.title, 'INV1 desk');
  desk.tells([asked('R1', {dealers: [{name: 'DLR1', answer: 'declined'}, {name: 'DLR2', answer: 'took back'}, {name: 'DLR3', answer: 'none'}]})]);
  assert.deepEqual([rows(), state()], [['DLR1 declined', 'DLR2 withdrew', 'DLR3 waiting'], '0 of 3 quoted, 1 waiting, 1 declined, 1 withdrew']);
});

test('quotes stand best first', () => {
  quotes([offered('DLR1', 99.5), offered('DLR2', 99.25), offered('DLR3', 99, {valid: clock.at})]);
  assert.deepEqual(rows(), ['DLR2 99.25 best to end', 'DLR1 99.5 8 to end', 'DLR3 99 over']);
  assert.equal(state(), '2 of 3 quoted, 1 over');
  assert.equal(document.title, '(1) INV1 desk');
  assert.deepEqual([...card(0).querySelectorAll('tbody tr')].map(row => row.className), ['best', '', 'over'], 'one is marked');
  assert.equal(hit('DLR2').getAttribute('aria-label'), 'buy from DLR2 at 99.25: 2,000,000 Alder 4 2034');
  assert.deepEqual([hit('DLR2').disabled, hit('DLR3').disabled], [false, true]);
  quotes([offered('DLR1', 99.5), offered('DLR2', 99.25)], {side: 'sell'});
  assert.deepEqual(rows(), ['DLR1 99.5 best to end', 'DLR2 99.25 8 to end', 'DLR3 waiting']);
  assert.equal(hit('DLR1').getAttribute('aria-label'), 'sell to DLR1 at 99.5: 2,000,000 Alder 4 2034');
  assert.deepEqual([words(card(0).querySelector('.side')), words(card(0).querySelector('th.quoted'))], ['SELL', 'Bid']);
});

test('a price that has changed has an arrow for a while', () => {
  quotes([offered('DLR1', 99.5)]);
  clock.skip(6000);
  quotes([offered('DLR1', 99.75)]);
  assert.equal(rows()[0], 'DLR1 \u25b2 99.75 best to end');
  quotes([offered('DLR1', 99.25)]);
  assert.equal(rows()[0], 'DLR1 \u25bc 99.25 best to end');
  clock.skip(6200);
  assert.equal(rows()[0], 'DLR1 99.25 best to end');
});

test('a quote whose validity runs out', () => {
  quotes([offered('DLR1', 99.5, {valid: clock.at + 1000}), offered('DLR2', 99.75)]);
  assert.deepEqual(plain().slice(0, 2), ['DLR1 99.5 best 0:01', 'DLR2 99.75 8 to end']);
  clock.pass(1200);
  assert.deepEqual(plain().slice(0, 2), ['DLR2 99.75 best to end', 'DLR1 99.5 over']);
});

test('two presses hit', () => {
  quotes([offered('DLR1', 99.5), offered('DLR2', 99.25)]);
  hit('DLR2').click();
  assert.deepEqual([told(), state()], ['A quote changed under your press: look again.', ''], 'in the place of what has been answered');
  clock.pass(499);
  hit('DLR2').click();
  assert.deepEqual([armed(), told()], [null, 'A quote changed under your press: look again.'], 'half a second, and not less');
  clock.pass(1);
  hit('DLR2').click();
  assert.equal(told(), 'Once more: buy 2,000,000 at 99.25 from DLR2');
  assert.equal(armed().getAttribute('aria-label'), 'Confirm: buy from DLR2 at 99.25: 2,000,000 Alder 4 2034');
  clock.pass(200);
  armed().click();
  assert.deepEqual(desk.heard, [], 'a double click is one press');
  clock.pass(100);
  armed().click();
  const [sent] = desk.heard;
  assert.deepEqual(sent, {do: 'hit', request: 'R1', quote: 'DLR2 99.25', price: 99.25 * 256, number: sent.number});
  assert.deepEqual([armed(), document.activeElement === card(0)], [null, true]);
  press(card(0), 'Enter', {repeat: true});
  assert.equal(told(), '');
  press(card(0), 'Enter');
  assert.equal(told(), 'Nothing is chosen: an arrow or F3 goes to a quote.');
  desk.answers(sent.number, 'Refused.');
  assert.equal(told(), 'Refused.');
  clock.skip(8000);
});

test('a worse quote that is chosen is told', () => {
  settle();
  hit('DLR1').click();
  assert.equal(told(), 'Once more: buy 2,000,000 at 99.5 from DLR1. NOT THE BEST: DLR2 has 99.25');
  hit('DLR2').click();
  assert.equal(told(), 'Once more: buy 2,000,000 at 99.25 from DLR2');
  press(card(0), 'Escape');
  assert.deepEqual([armed(), told()], [null, '']);
  hit('DLR2').click();
  clock.skip(4000);
  assert.deepEqual([armed(), told()], [null, 'Nothing was sent: the second press has to come within 4 seconds.']);
  clock.skip(8000);
});

test('what becomes of a first press', () => {
  const choose = () => {
    quotes([offered('DLR1', 99.5), offered('DLR2', 99.25)]);
    clock.skip(9000);
    hit('DLR2').focus();
    hit('DLR2').click();
    assert.ok(armed());
  };
  choose();
  quotes([offered('DLR1', 99.5), offered('DLR2', 99.375)]);
  assert.deepEqual([armed(), told()], [null, 'DLR2 went from 99.25 to 99.375, which is worse: your first press is taken back.']);
  assert.equal(document.activeElement, card(0));
  choose();
  quotes([offered('DLR1', 99.5), offered('DLR2', 99.125)]);
  assert.equal(told(), 'DLR2 has improved 99.25 to 99.125. Once more: buy 2,000,000 at 99.125 from DLR2');
  choose();
  quotes([offered('DLR1', 99.5)]);
  assert.equal(told(), 'DLR2 has withdrawn the 99.25 that you chose: your first press is taken back.');
  assert.equal(armed(), null);
  quotes([offered('DLR1', 99.5), offered('DLR2', 99.125)]);
  assert.equal(told(), 'DLR2 has improved 99.25 to 99.125. Once more: buy 2,000,000 at 99.125 from DLR2', 'its next quote came at once');
  assert.equal(document.activeElement, armed());
  choose();
  quotes([offered('DLR1', 99.5)]);
  clock.pass(1000);
  quotes([offered('DLR1', 99.5), offered('DLR2', 99.125)]);
  assert.equal(armed(), null, 'it came too late');
  choose();
  quotes([offered('DLR1', 99.5), offered('DLR2', 99.25)], {pending: [{act: 'pass', trader: 'V2'}]});
  assert.deepEqual([armed(), told()], [null, 'The pass of V2 is sent: your first press is taken back.']);
  choose();
  quotes([offered('DLR1', 99.5), offered('DLR2', 99.25, {id: 'other', valid: clock.at - 1})]);
  assert.match(told(), /^DLR2 has withdrawn/, 'a quote that is over is no next one');
  choose();
  clock.pass(3000);
  quotes([offered('DLR1', 99.375), offered('DLR2', 99.25)]);
  assert.ok(armed());
  clock.pass(1100);
  assert.equal(armed(), null, 'another\u2019s quote gives the second press no more time');
});

test('what becomes of a first press where the investor sells', () => {
  const sells = (...list) => quotes(list, {side: 'sell', deadline: clock.at + 60_000});
  const choose = () => {
    sells(offered('DLR1', 99), offered('DLR2', 99.25));
    clock.skip(600);
    hit('DLR2').click();
    assert.equal(told(), 'Once more: sell 2,000,000 at 99.25 to DLR2');
  };
  choose();
  sells(offered('DLR1', 99), offered('DLR2', 99.125));
  assert.deepEqual([armed(), told()], [null, 'DLR2 went from 99.25 to 99.125, which is worse: your first press is taken back.'], 'a lower bid is worse');
  choose();
  sells(offered('DLR1', 99), offered('DLR2', 99.375));
  assert.equal(told(), 'DLR2 has improved 99.25 to 99.375. Once more: sell 2,000,000 at 99.375 to DLR2');
  clock.pass(600);
  armed().click();
  const [sent] = desk.heard;
  assert.deepEqual(sent, {do: 'hit', request: 'R1', quote: 'DLR2 99.375', price: 99.375 * 256, number: sent.number}, 'the better price is hit');
  desk.answers(sent.number);
  choose();
  sells(offered('DLR1', 99.5), offered('DLR2', 99.25));
  assert.equal(told(), 'Once more: sell 2,000,000 at 99.25 to DLR2. NOT THE BEST: DLR1 has 99.5');
  press(card(0), 'Escape');
});

test('keys go from quote to quote', () => {
  quotes([offered('DLR1', 99.5), offered('DLR2', 99.25)]);
  clock.skip(9000);
  document.body.focus();
  document.activeElement.blur();
  press(document.body, 'F3');
  assert.deepEqual([document.activeElement === hit('DLR2'), card(0).scrolled], [true, {block: 'nearest'}], 'F3 goes to the best');
  press(document.activeElement, 'ArrowDown');
  assert.equal(document.activeElement, hit('DLR1'));
  press(document.activeElement, 'ArrowUp');
  assert.equal(document.activeElement, hit('DLR2'));
  press(document.activeElement, 'ArrowUp');
  assert.equal(words(document.activeElement), 'Pass?', 'from the first to the last');
});

test('a pass takes two presses', () => {
  const pass = button(card(0), 'Pass');
  pass.click();
  clock.pass(300);
  pass.click();
  const [sent] = desk.heard;
  assert.deepEqual(sent, {do: 'pass', request: 'R1', number: sent.number});
  desk.answers(sent.number);
});

test('what can not be pressed', () => {
  const can = () => [!hit('DLR1').disabled, !button(card(0), 'Pass').disabled];
  quotes([offered('DLR1', 99.5)]);
  assert.deepEqual(can(), [true, true]);
  quotes([offered('DLR1', 99.5)], {pending: [{act: 'hit', trader: 'V1'}]});
  assert.deepEqual([can(), state()], [[false, false], 'Hit sent, not answered yet']);
  quotes([offered('DLR1', 99.5)], {state: 'sent'});
  assert.deepEqual(can(), [false, false]);
  quotes([offered('DLR1', 99.5)], {deadline: clock.at});
  assert.deepEqual([can(), words(card(0).querySelector('.left'))], [[false, true], 'over']);
  quotes([offered('DLR1', 99.5)]);
  desk.says({...investorHello().session, on: false});
  clock.pass(200);
  assert.deepEqual(can(), [false, false]);
  desk.says(investorHello().session);
  clock.pass(200);
  assert.deepEqual(can(), [true, true]);
  desk.says({t: 'trader', trader: {...investorHello().trader, mayAct: false}});
  clock.pass(200);
  assert.deepEqual(can(), [false, false]);
  desk.says({t: 'trader', trader: investorHello().trader});
});

test('whose a request is', () => {
  const who = () => words(card(0).querySelector('.who'));
  assert.equal(who(), '');
  quotes([], {trader: 'V2'});
  assert.equal(who(), 'by V2');
  quotes([], {program: 'auto'});
  assert.equal(who(), 'by the program auto');
});

const ended = more => {
  quotes([offered('DLR1', 99.5)]);
  quotes([offered('DLR1', 99.5, {state: more.state === 'done' ? 'hit' : 'gone'}), offered('DLR2', 99.75)], {ended: clock.at, told: {text: 'Passed', at: clock.at, refusal: false}, ...more});
  return told().replace(/\d\d:\d\d:\d\d/, 'NOW');
};

test('how a request ended', () => {
  const award = {dealer: 'DLR1', price: 99.5 * 256};
  assert.equal(ended({state: 'passed'}), 'Passed, NOW UTC');
  assert.equal(button(card(0), 'Pass'), undefined);
  assert.equal(ended({state: 'done', award}), 'Bought 2,000,000 at 99.5 from DLR1, NOW UTC. No cover.');
  assert.equal(ended({state: 'done', side: 'sell', award, trade: 'X1', cover: {price: 99 * 256, dealer: 'DLR2'}}), 'Sold 2,000,000 at 99.5 to DLR1, NOW UTC. Cover 99, DLR2. Trade X1.');
  assert.deepEqual(plain(), ['DLR2 99.75 best', 'DLR1 99.5 8', 'DLR3 no quote']);
  assert.equal(words(card(0).querySelector('tr.won')).includes('Done'), true);
  assert.ok(seen(button(card(0), 'Ticket')) && seen(button(card(0), 'Close')));
  clock.skip(60_000);
  assert.equal(cards().length, 1, 'a trade stays until it is closed');
  button(card(0), 'Close').click();
  assert.deepEqual([cards().length, words(at('cards'))], [0, 'No open request. F2 goes to the ticket.']);
});

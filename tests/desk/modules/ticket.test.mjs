// An investor's ticket: what it reads back, what it says of each fault, what it sends, and a list that is pasted.
import assert from 'node:assert/strict';
import test from 'node:test';
import {button, clock, document, load, midday, press, type, window, words} from './stand.mjs';
import {BOND, SECOND, asked, investorHello} from './samples.mjs';
import {at, desk, seen} from './whole.mjs';

const groups = {rates: ['DLR1', 'DLR3']};
await desk.open(investorHello({groups}), asked('R0', {state: 'passed', ended: midday - 90_000, dealers: [{name: 'DLR2', answer: 'none'}]}));
const ticket = at('ticket').querySelector('form');
const [bond, buy, sell, quantity, deadline] = ['bond', 'buy', 'sell', 'quantity', 'deadline'].map(at);
const echo = () => words(ticket.querySelector('.echo'));
const why = () => words(ticket.querySelector(':scope > [role=alert].why:last-child'));
const submit = () => ticket.dispatchEvent(new window.Event('submit', {bubbles: true, cancelable: true}));
const fault = name => { const line = at(`${name}-fault`); return seen(line) ? words(line) : ''; };
const box = name => ticket.querySelector(`input[value=${name}]`);
const boxes = () => [...ticket.querySelectorAll('.picks input')].filter(one => one.checked).map(one => one.value);
const leave = node => node.dispatchEvent(new window.FocusEvent('focusout', {bubbles: true}));
const tick = node => node.click();
function fill(values = {}) {
  const {name = 'alder', size = '2m', side = buy} = values;
  type(bond, name);
  press(bond, 'Enter');
  side.checked = true;
  type(quantity, size);
  if (!box('DLR1').checked) tick(box('DLR1'));
}

test('what is missing', () => {
  assert.deepEqual([boxes(), words(ticket.querySelector('.source'))], [['DLR2'], 'As in your last request']);
  assert.equal(document.activeElement, bond, 'the keys go where the work begins');
  assert.deepEqual([document.body.className, seen(at('ticket'))], ['investor asks', true]);
  assert.equal(echo(), 'Choose a bond, a side, a quantity.');
  type(quantity, '2m');
  assert.equal(echo(), 'Choose a bond, a side. The quantity is 2,000,000.');
  assert.equal(words(button(ticket, 'Ask 1 dealer')), 'Ask 1 dealer');
  submit();
  assert.equal(fault('bond'), 'Choose a bond: a part of its name or identifier will do.');
  assert.deepEqual([bond.getAttribute('aria-invalid'), bond.getAttribute('aria-describedby'), desk.heard], ['true', 'bond-fault', []]);
  press(ticket, 'Escape');
  assert.deepEqual([fault('bond'), quantity.value, bond.getAttribute('aria-invalid')], ['', '', null]);
});

test('a bond that is completed', () => {
  const list = at('bonds'), options = () => [...list.children].map(words);
  type(bond, 'b');
  assert.deepEqual([options(), list.hidden, bond.getAttribute('aria-expanded')], [[`Birch 3 2030${SECOND}`, `Alder 4 2034${BOND}`], false, 'true']);
  press(bond, 'ArrowDown');
  assert.equal(bond.getAttribute('aria-activedescendant'), 'bond-1');
  press(bond, 'ArrowDown');
  assert.equal(bond.getAttribute('aria-activedescendant'), 'bond-0', 'from the last to the first');
  press(bond, 'ArrowUp');
  assert.equal(list.children[1].getAttribute('aria-selected'), 'true');
  press(bond, 'Enter');
  assert.deepEqual([bond.value, list.hidden], ['Alder 4 2034', true]);
  type(bond, 'b');
  const down = new window.MouseEvent('mousedown', {bubbles: true, cancelable: true});
  list.children[0].firstChild.dispatchEvent(down);
  assert.deepEqual([bond.value, list.hidden, down.defaultPrevented], ['Birch 3 2030', true, true], 'by the mouse, and the keys stay in the field');
  type(bond, '2030 bir');
  assert.deepEqual([options(), list.hidden, bond.getAttribute('aria-expanded')], [[`Birch 3 2030${SECOND}`], false, 'true'], 'one is a list, too');
  press(bond, 'Escape');
  assert.deepEqual([list.hidden, bond.getAttribute('aria-expanded'), bond.value], [true, 'false', '2030 bir']);
  press(bond, 'ArrowDown');
  assert.equal(list.hidden, false);
  bond.dispatchEvent(new window.FocusEvent('blur'));
  assert.equal(bond.value, 'Birch 3 2030', 'what was typed names one bond');
  type(bond, 'oak');
  assert.deepEqual([list.hidden, echo()], [true, 'No bond has \u201coak\u201d in its name or identifier.']);
  leave(bond);
  assert.equal(fault('bond'), 'No bond has \u201coak\u201d in its name or identifier.');
  press(ticket, 'Escape');
});

test('a side by a key', () => {
  const sides = ticket.querySelector('.sides');
  press(sides, 's', {ctrlKey: true});
  assert.ok(!sell.checked);
  press(sides, 'S');
  assert.deepEqual([sell.checked, ticket.dataset.side], [true, 'sell']);
  press(sides, 'b');
  assert.deepEqual([buy.checked, sell.checked, ticket.dataset.side], [true, false, 'buy']);
  press(document.body, 'F2');
  assert.deepEqual([buy.checked, document.activeElement], [false, bond], 'the side is chosen anew');
});

test('what it reads back', () => {
  fill();
  assert.equal(echo(), 'Buy 2,000,000 Alder 4 2034, answers within 2 min, until 12:02:00 UTC, in steps of 1/256');
  assert.equal(words(ticket.querySelector('button.strong')), 'Ask 2 dealers');
  clock.pass(1000);
  assert.match(echo(), /until 12:02:01 UTC/, 'the time of the end moves on');
});

test('what is wrong with a quantity or a deadline', () => {
  type(quantity, '6m');
  assert.deepEqual([echo(), fault('quantity')], ['6,000,000 is above the limit of 5,000,000 a request.', '']);
  leave(quantity);
  assert.equal(fault('quantity'), '6,000,000 is above the limit of 5,000,000 a request.');
  type(quantity, '2x');
  assert.deepEqual([echo(), fault('quantity')], ['2x is no quantity: write 2,000,000, 2m or 500k.', ''], 'while it is typed');
  type(quantity, '5m');
  for (const [typed, words_] of Object.entries({4: 'A deadline is 5 seconds away at least.', '12:00:01': 'The deadline is after midnight in UTC, when the venue\u2019s day ends.',
    x: 'A deadline is a time from now: 90 (seconds), 2:00, 5m or 1h.', '25:00:00': 'The deadline is after midnight in UTC, when the venue\u2019s day ends.'})) {
    type(deadline, typed);
    assert.equal(echo(), words_, typed);
  }
  for (const typed of ['5', '11:59:58']) {
    type(deadline, typed);
    assert.match(echo(), /^Buy 5,000,000/, typed);
  }
  type(deadline, '');
  assert.equal(echo(), 'Choose a deadline. The quantity is 5,000,000.');
  type(deadline, '2:00');
  const {trader} = investorHello();
  desk.says({t: 'trader', trader: {...trader, quantity: 5e6 - 1}});
  type(quantity, '5m');
  assert.equal(echo(), '5,000,000 is above the limit of 4,999,999 a request.');
  desk.says({t: 'trader', trader});
});

test('what it sends', () => {
  type(quantity, '2m');
  submit();
  const [sent] = desk.heard;
  assert.deepEqual(sent, {do: 'ask', bond: BOND, side: 'buy', quantity: 2e6, seconds: 120, dealers: ['DLR1', 'DLR2'], number: sent.number});
  assert.ok(ticket.querySelector('button.strong').disabled);
  desk.answers(sent.number, 'No.');
  assert.deepEqual([why(), quantity.value, ticket.querySelector('button.strong').disabled], ['No.', '2m', false]);
  type(deadline, '90');
  submit();
  desk.answers(desk.heard[0].number);
  assert.deepEqual([why(), quantity.value, bond.value, buy.checked, deadline.value, boxes()], ['', '', '', false, '2:00', ['DLR1', 'DLR2']]);
  assert.equal(localStorage.getItem('dealers INV1 ann'), '["DLR1","DLR2"]');
});

test('the same is asked twice only by a press more', () => {
  desk.tells([asked('R1')]);
  fill();
  submit();
  assert.equal(why(), 'The same is open already. Press again to ask a second time.');
  clock.pass(599);
  submit();
  assert.deepEqual(desk.heard, [], 'too soon to be an answer');
  clock.pass(1);
  submit();
  desk.answers(desk.heard[0].number);
  fill();
  clock.skip(8001);
  submit();
  assert.deepEqual(desk.heard, [], 'the question is asked anew');
  for (const other of [{name: 'birch'}, {size: '1m'}, {side: sell}]) {
    fill(other);
    submit();
    desk.answers(desk.heard[0].number);
  }
});

test('dealers and groups', () => {
  const pick = name => button(ticket.querySelector('.chips'), name).click();
  pick('none');
  assert.deepEqual([boxes(), words(ticket.querySelector('.source'))], [[], '']);
  fill();
  tick(box('DLR1'));
  assert.equal(echo(), 'Choose dealers. The quantity is 2,000,000.');
  pick('all');
  assert.deepEqual(boxes(), ['DLR1', 'DLR2', 'DLR3']);
  pick('rates');
  assert.deepEqual(boxes(), ['DLR1', 'DLR3']);
  const name = ticket.querySelector('.group-name'), said = () => words(ticket.querySelector('.dealers > .why'));
  press(name, 'Enter');
  assert.deepEqual(desk.heard, []);
  name.value = ' two ';
  pick('none');
  press(name, 'Enter');
  assert.equal(said(), 'Choose the dealers of the group first.');
  pick('rates');
  press(name, 'Enter');
  let [sent] = desk.heard;
  assert.deepEqual(sent, {do: 'save group', name: 'two', dealers: ['DLR1', 'DLR3'], number: sent.number});
  desk.answers(sent.number, 'No.');
  assert.deepEqual([said(), name.value], ['No.', ' two ']);
  press(name, 'Enter');
  desk.answers(desk.heard[0].number);
  assert.deepEqual([said(), name.value], ['', '']);
  pick('two');
  const remover = [...ticket.querySelectorAll('.group')].find(one => words(one).startsWith('two')).lastChild;
  remover.click();
  clock.pass(300);
  remover.click();
  [sent] = desk.heard;
  assert.deepEqual(sent, {do: 'save group', name: 'two', dealers: [], number: sent.number});
  desk.answers(sent.number);
  assert.equal(button(ticket, 'two'), undefined);
});

test('a ticket that is folded', () => {
  const fold = button(ticket, 'New request'), is = () => [ticket.classList.contains('folded'), fold.getAttribute('aria-expanded')];
  assert.deepEqual(is(), [false, 'true']);
  fold.click();
  assert.deepEqual(is(), [true, 'false']);
  press(document.body, 'F2');
  assert.deepEqual([...is(), document.activeElement === bond], [false, 'true', true]);
  at('many').click();
  document.activeElement.blur();
  press(document.body, 'F2');
  assert.equal(document.activeElement, text, 'to the lines of a list');
  at('many').click();
});

const text = at('lines');
const lineRows = () => [...ticket.querySelectorAll('.checked tbody tr')].map(row => [...row.children].map(words).join('|'));

test('a list that is pasted', () => {
  button(ticket, 'Paste a list').click();
  const isWide = () => document.body.classList.contains('lists'); // the column that the ticket stands in
  assert.deepEqual([document.activeElement, at('many').getAttribute('aria-pressed'), isWide()], [text, 'true', true]);
  const isShown = () => seen(ticket.querySelector('.checked tbody'));
  assert.deepEqual([echo(), isShown()], ['Choose lines.', false]);
  type(text, 'birch b 1m');
  assert.deepEqual([lineRows(), isShown()], [['1|BUY|1,000,000|Birch 3 2030'], true], 'one line is a list, too');
  type(text, `Bond\tSide\tQuantity\n${BOND}\tbuy\t2m\nbirch, sell, 1,000,000\nb birch 500k\n`);
  assert.deepEqual(lineRows(), ['1|BUY|2,000,000|Alder 4 2034Look: the same is open already', '2|SELL|1,000,000|Birch 3 2030', '3|BUY|500,000|Birch 3 2030']);
  assert.equal(echo(), '3 requests: buy 2,500,000 and sell 1,000,000. Answers within 2 min of each request, asked one after the other as the limits allow');
  assert.equal(words(ticket.querySelector('button.strong')), 'Ask 2 dealers for 3 requests');
  submit();
  assert.equal(why(), 'Once more: ask 2 dealers to buy 2,500,000 and sell 1,000,000, in 3 requests.');
  clock.pass(599);
  submit();
  assert.deepEqual(desk.heard, []);
  clock.pass(1);
  at('list-name').value = ' mine ';
  submit();
  const [sent] = desk.heard;
  assert.deepEqual(sent, {do: 'ask list', name: 'mine', seconds: 120, dealers: ['DLR1', 'DLR3'], number: sent.number,
    lines: [{bond: BOND, side: 'buy', quantity: 2e6}, {bond: SECOND, side: 'sell', quantity: 1e6}, {bond: SECOND, side: 'buy', quantity: 5e5}]});
  desk.answers(sent.number);
  assert.deepEqual([at('many').getAttribute('aria-pressed'), text.value, at('list-name').value, isWide()], ['false', '', '', false]);
  at('many').click();
  type(text, sent.lines.map(({bond: id, side, quantity: size}) => `${id}\t${side}\t${size}`).join('\n'));
  submit();
  assert.deepEqual([desk.heard, why()], [[], 'Once more: ask 2 dealers to buy 2,500,000 and sell 1,000,000, in 3 requests.'], 'the same list is asked by two presses again');
  press(text, 'Escape');
  type(text, '');
  at('many').click();
});

test('a list that can not be asked', () => {
  button(ticket, 'Paste a list').click();
  const why_ = {'birch b 1m\noak b 1m': 'Line 2: No bond has \u201coak\u201d in its name or identifier.', [Array(51).fill('birch b 1m').join('\n')]: '51 lines: a list has 50 at most.'};
  for (const [lines, words_] of Object.entries(why_)) {
    type(text, lines);
    assert.equal(echo(), words_);
  }
  type(text, Array(50).fill('birch b 1m').join('\n'));
  assert.match(echo(), /^50 requests: buy 50,000,000\. /);
  type(text, 'birch b 1m\nalder s 1m');
  desk.says({...investorHello().session, accepted: 1023});
  clock.pass(200);
  assert.equal(echo(), '2 lines, and 1 request is left of the day.');
  type(text, 'birch b 1m');
  desk.says({...investorHello().session, accepted: 1024});
  clock.pass(200);
  assert.equal(echo(), '1 line, and 0 requests are left of the day.');
  type(text, 'birch b 1m\nalder s 1m');
  desk.says({...investorHello().session, accepted: 1022});
  clock.pass(200);
  assert.match(echo(), /^2 requests: buy 1,000,000 and sell 1,000,000/);
  submit();
  type(text, 'birch b 1m');
  assert.match(echo(), /^1 request: buy 1,000,000\. /);
  clock.pass(700);
  submit();
  assert.deepEqual([desk.heard, why()], [[], 'Once more: ask 2 dealers to buy 1,000,000, in 1 request.'], 'other lines are asked about anew');
  press(text, 'Escape');
  assert.deepEqual([why(), text.value], ['', 'birch b 1m']);
  clock.pass(700);
  submit();
  assert.match(why(), /^Once more/, 'Escape takes the first press back');
  clock.skip(8001);
  submit();
  assert.deepEqual(desk.heard, [], 'a first press is forgotten');
  clock.pass(700);
  submit();
  assert.match(desk.heard[0].name, /^List \d\d:\d\d:\d\d$/);
});

// A ticket by itself, of a page that opens.
const {Ticket} = await load('ticket.js');
const {Model} = await load('model.js');
function opened(hello, ...requests) {
  const model = new Model();
  model.take(hello);
  model.take({t: 'requests', requests});
  const own = new Ticket(model, {now: () => clock.at, act: () => {}});
  const chosen = () => [...own.node.querySelectorAll('.picks input')].filter(one => one.checked).map(one => one.value);
  own.preselect();
  return {ticket: own, chosen, source: words(own.node.querySelector('.source')), echo: () => words(own.node.querySelector('.echo'))};
}
const of = (...names) => names.map(name => ({name, answer: 'none'}));

test('the dealers of a page that opens', () => {
  localStorage.removeItem('dealers INV1 ann');
  const first = opened(investorHello({groups}), asked('R1', {trader: 'V2', dealers: of('DLR2')}));
  assert.deepEqual([first.chosen(), first.source], [['DLR1', 'DLR3'], 'The group rates'], 'a colleague\u2019s request is none of one\u2019s own');
  const last = opened(investorHello({groups}), asked('R1', {dealers: of('DLR1')}), asked('R2', {dealers: of('DLR2', 'DLR3')}), asked('R3', {trader: 'V2', dealers: of('DLR1')}));
  assert.deepEqual([last.chosen(), last.source], [['DLR2', 'DLR3'], 'As in your last request']);
  localStorage.setItem('dealers INV1 ann', '["DLR3", 5, "DLR9"]');
  const kept = opened(investorHello({groups}));
  assert.deepEqual([kept.chosen(), kept.source], [['DLR3'], 'As in your last request'], 'of a day before, as this browser knows it');
  for (const other of ['{', 'null', '{"a": 1}']) {
    localStorage.setItem('dealers INV1 ann', other);
    assert.deepEqual(opened(investorHello({groups})).chosen(), ['DLR1', 'DLR3'], other);
  }
  assert.deepEqual([opened(investorHello()).chosen(), opened(investorHello()).source], [[], '']);
});

const {unsent} = await load('link.js');

test('what an earlier request fills in', () => {
  const {ticket: own} = opened(investorHello()), sent = [];
  own.link.act = (command, tell) => { sent.push(command.do); tell(sent.length === 1 ? unsent : 'No.'); };
  document.body.append(own.node);
  own.fold(true);
  own.choose(true);
  own.fill(asked('R1', {dealers: of('DLR2')}));
  assert.deepEqual([own.isMany(), own.node.className, own.node.scrolled, document.activeElement === own.button], [false, 'ticket', {block: 'nearest'}, true]);
  clock.pass(699);
  own.ask();
  assert.deepEqual([sent, words(own.why)], [[], 'Filled in just now: look at it, and press again.']);
  clock.pass(1);
  own.ask();
  assert.deepEqual([sent, words(own.why), own.button.disabled], [['ask'], unsent, false]);
  own.begin();
  assert.equal(words(own.why), '', 'the desk is there again');
  own.ask();
  own.begin();
  assert.equal(words(own.why), 'No.', 'what it has refused stays');
  own.node.remove();
});

test('a request goes to eight dealers at most', () => {
  const market = {...investorHello().market, dealers: Array.from({length: 9}, (_, nth) => `DLR${nth + 1}`)};
  const {ticket: own, echo: says} = opened(investorHello({market, groups: {big: market.dealers}}));
  assert.deepEqual([...own.node.querySelectorAll('.chips button')].map(words), ['none', 'big', '\u00d7?'], 'no button chooses every dealer');
  assert.equal(says(), '9 dealers are chosen: a request has 8 at most.');
  own.dealers.choose(market.dealers.slice(1));
  assert.equal(says(), 'Choose a bond, a side, a quantity.');
});

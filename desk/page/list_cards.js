// The cards of lists: each list that was asked at once has one card, with the state of each of its lines, and its CSV.
import {h, arrange, set, show} from './dom.js';
import {amount, clock, counted, span} from './amounts.js';
import {csv, save} from './csv.js';
import {hasTraded, isOpen, isOver, ranked} from './model.js';
import {decimal, text} from './price.js';
import {label, twoPresses} from './presses.js';

const ends = {refused: 'refused', undelivered: 'not delivered', passed: 'passed', expired: 'expired', sent: 'sent, not answered yet'};

export class ListCards {
  // acts are {go(request id): leads to a card, tell(words, isBad)}.
  constructor(section, model, link, acts) {
    this.section = section;
    this.model = model;
    this.link = link;
    this.acts = acts;
    this.cards = new Map();
    this.closed = new Set();
  }
  draw(moment) {
    const lists = [...this.model.lists.values()].filter(list => !this.closed.has(list.id));
    const nodes = lists.map(list => this.card(list.id).draw(list, moment));
    arrange(this.section, nodes);
    show(this.section, nodes.length > 0);
  }
  card(id) {
    if (!this.cards.has(id)) this.cards.set(id, new ListCard(this.model, this.link, {...this.acts, close: () => this.close(id)}));
    return this.cards.get(id);
  }
  close(id) {
    this.closed.add(id);
    this.draw(this.link.now());
  }
}

class ListCard {
  constructor(model, link, acts) {
    this.model = model;
    this.acts = acts;
    this.lines = [];
    this.title = h('h2');
    this.sums = h('p', {className: 'quiet', role: 'status'});
    this.rows = h('tbody');
    this.stop = twoPresses('Stop', 'stop', () => link.act({do: 'stop list', list: this.list.id}, why => why && acts.tell(why, true)), 'Ask no more of');
    this.save = h('button', {type: 'button', className: 'small', onclick: () => this.export()}, 'CSV');
    this.close = h('button', {type: 'button', className: 'small', onclick: acts.close}, 'Close');
    const head = (name, kind = '') => h('th', {scope: 'col', className: kind}, name);
    this.node = h('article', {className: 'list-card', tabIndex: -1},
      h('div', {className: 'head'}, this.title, this.stop, this.save, this.close), this.sums,
      h('div', {className: 'lines'}, h('table', {}, h('thead', {}, h('tr', {}, head('Line', 'number'), head('Side'), head('Quantity', 'number'), head('Bond'),
        head('State'), head('Price', 'number'), head('Dealer'))), this.rows)));
  }
  draw(list, moment) {
    this.list = list;
    this.moment = moment;
    if (this.lines.length !== list.lines.length) this.make();
    const states = list.lines.map(line => this.stateOf(line));
    states.forEach((state, at) => this.drawLine(this.lines[at], list.lines[at], state));
    const count = kind => states.filter(state => state.kind === kind).length, waits = count('waiting'), open = count('open');
    set(this.title, list.name);
    set(this.sums, `${counted(list.lines.length, 'line')} by ${list.trader}, ${clock(list.made)} UTC: ${[[waits, 'waiting'], [open, 'open'], [count('done'), 'done'], [count('over'), 'ended without a trade']]
      .filter(([number]) => number).map(part => part.join(' ')).join(', ')}`);
    show(this.stop, waits > 0 && this.model.mayAct());
    show(this.close, !waits && !open);
    for (const button of [this.stop, this.save, this.close]) label(button, list.name);
    this.node.setAttribute('aria-label', `List ${list.name}`);
    return this.node;
  }
  make() {
    this.lines = this.list.lines.map((line, at) => {
      const cell = (value, kind = '') => h('td', {className: kind}, value), bond = this.model.bond(line.bond).name;
      const button = h('button', {type: 'button', className: 'line', onclick: () => this.acts.go(this.list.lines[at].request)}, bond);
      const parts = {button, state: cell(''), price: cell('', 'number'), dealer: cell('')};
      parts.node = h('tr', {'data-side': line.side}, cell(String(at + 1), 'number'), cell(line.side.toUpperCase(), 'side'),
        cell(amount(line.quantity), 'number'), h('th', {scope: 'row'}, button), parts.state, parts.price, parts.dealer);
      return parts;
    });
    this.rows.replaceChildren(...this.lines.map(line => line.node));
  }
  // {kind: 'waiting', 'open', 'done' or 'over', words, price, dealer} of a line.
  stateOf(line) {
    const request = this.model.requests.get(line.request);
    if (!request) return {kind: line.state === 'waiting' || line.state === 'sent' ? 'waiting' : 'over', words: line.why || line.state};
    if (hasTraded(request)) return {kind: 'done', words: 'DONE', price: request.award.price, dealer: request.award.dealer};
    const [best] = ranked(request, request.ended ?? this.moment), shown = best && !isOver(best, request.ended ?? this.moment) ? best : undefined;
    if (!isOpen(request)) return {kind: 'over', words: ends[request.state] ?? request.state, price: shown?.price, dealer: shown?.dealer};
    const quoted = request.dealers.filter(one => one.answer === 'quoted').length;
    return {kind: 'open', words: `${span(request.deadline - this.moment)}, ${quoted}/${request.dealers.length} quoted`, price: shown?.price, dealer: shown?.dealer};
  }
  drawLine({button, state, price, dealer, node}, line, {kind, words, price: number, dealer: name}) {
    set(state, words);
    set(price, number === undefined ? '' : text(number));
    set(dealer, name ?? '');
    button.disabled = !this.model.requests.has(line.request);
    button.setAttribute('aria-label', `To line ${node.rowIndex}: ${line.side.toUpperCase()} ${amount(line.quantity)} ${button.textContent}`);
    node.className = kind;
  }
  // As the blotter's: prices are decimals, and `price` is that of a trade.
  export() {
    const {firm, date} = this.model.hello, number = price => price ? Number(decimal(price)) : '';
    const head = ['line', 'request', 'side', 'quantity', 'bond', 'bond_name', 'state', 'price', 'counterparty', 'best', 'trade', 'note'];
    const rows = this.list.lines.map((line, at) => {
      const request = this.model.requests.get(line.request), {kind, words, price, dealer} = this.stateOf(line), isDone = kind === 'done';
      return [at + 1, line.request, line.side === 'buy' ? 'Buy' : 'Sell', line.quantity, line.bond, this.model.bond(line.bond).name, isDone ? 'DONE' : words,
        isDone ? number(price) : '', dealer ?? '', number(isDone ? request.cover?.price : price), request?.trade ?? '', request?.told?.refusal ? request.told.text : line.why];
    });
    const file = `${firm}-${date}-${this.list.name.replaceAll(/[^\w.-]+/g, '_')}.csv`;
    save(file, csv([head, ...rows]));
    this.acts.tell(`${file}: ${counted(rows.length, 'line')}`);
  }
}

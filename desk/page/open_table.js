// Lists what is open beside the cards, one line a request: to look at fifty, and to go from one to another by keys
// alone.
import {h, arrange, set, show} from './dom.js';
import {amount, span} from './amounts.js';
import {isOpen, isOver, liveQuote, ranked} from './model.js';
import {text} from './price.js';
import {Sorting} from './sorting.js';
import {termsOf} from './news.js';

const key = 'table';
const pageOf = 10; // lines that PageUp and PageDown go
const soon = 15_000;

export class OpenTable {
  // now() is the desk's time; go(id) leads to the card of a request.
  constructor(node, model, now, go) {
    this.node = node;
    this.model = model;
    this.now = now;
    this.go = go;
    this.lines = new Map(); // by request
    this.order = []; // of the lines that are shown
    this.at = null;  // the request of the line on which the keys are, or were
    this.isShown = localStorage.getItem(key) === 'shown';
    this.back = null; // what had the focus before
    this.button = h('button', {type: 'button', id: 'table-button', 'aria-controls': node.id, onclick: () => this.toggle()}, 'Table', h('kbd', {}, 'F8'));
    this.list = h('tbody');
    this.empty = h('p', {className: 'quiet empty'}, 'No request is open.');
  }
  begin() {
    this.hadKeys = this.node.contains(document.activeElement);
    this.lines.clear();
    if (!this.sorting) {
      this.sorting = new Sorting(this.columns(), () => this.draw());
      this.sorting.press(this.sorting.columns[0]);
      this.node.append(h('div', {className: 'bar'}, h('h2', {}, 'Open'), this.sorting.choice),
        h('table', {className: 'open-table', onkeydown: event => this.press(event)}, h('thead', {}, h('tr', {}, ...this.sorting.heads)), this.list), this.empty);
    }
    this.place();
  }
  columns() {
    const isDealer = this.model.isDealer();
    return [
      {name: 'Left', of: one => one.deadline, isNumber: true, isLeastFirst: true, kind: 'number'},
      {name: 'Side', of: one => this.side(one)}, {name: 'Size', of: one => one.quantity, isNumber: true, kind: 'number'},
      {name: 'Bond', of: one => this.model.bond(one.bond).name},
      {name: isDealer ? 'Live' : 'Best', of: one => this.quote(one)?.price, isNumber: true, kind: 'number'},
      ...(this.hasYields() ? [{name: 'Yield', of: one => this.quote(one)?.yield, isNumber: true, kind: 'number yield'}] : []),
      {name: isDealer ? 'Investor' : 'Quotes', of: one => this.whom(one)}];
  }
  hasYields() { return this.model.hello.market.bonds.some(bond => bond.priced); }
  side(request) {
    const buys = request.side === 'buy';
    return this.model.isDealer() ? (buys ? 'OFFER' : 'BID') : buys ? 'BUY' : 'SELL';
  }
  // A dealer's own live one, an investor's best.
  quote(request) {
    if (this.model.isDealer()) return liveQuote(request);
    const [best] = ranked(request, this.moment);
    return best && !isOver(best, this.moment) ? best : undefined;
  }
  whom(request) {
    if (this.model.isDealer()) return request.investor;
    return `${request.dealers.filter(one => one.answer === 'quoted').length}/${request.dealers.length}`;
  }
  // In words, for who does not see the line.
  state(request) {
    const quote = this.quote(request);
    if (!isOpen(request)) return 'ended';
    if (this.model.isDealer()) return quote ? `live at ${text(quote.price)}` : request.declined ? 'declined' : 'no live quote';
    return quote ? `best ${text(quote.price)} of ${quote.dealer}` : 'no quote';
  }

  toggle() {
    this.isShown = !this.isShown;
    localStorage.setItem(key, this.isShown ? 'shown' : 'hidden');
    this.place();
    if (this.isShown) this.focus();
  }
  place() {
    show(this.node, this.isShown);
    this.button.setAttribute('aria-expanded', String(this.isShown));
    document.body.classList.toggle('tables', this.isShown);
    this.draw();
  }
  // F8: to the table; from it, away and back to where the keys were.
  key() {
    if (this.isShown && this.node.contains(document.activeElement)) {
      this.toggle();
      return this.back?.focus();
    }
    this.back = document.activeElement;
    if (this.isShown) this.focus();
    else this.toggle();
  }
  focus() {
    (this.lines.get(this.at) ?? this.lines.get(this.order[0]))?.button.focus();
  }
  // Where the keys were before the desk came back.
  comeBack() {
    if (this.hadKeys && document.activeElement === document.body) {
      this.draw();
      this.focus();
    }
    this.hadKeys = false;
  }
  press(event) {
    const {length} = this.order, at = this.order.indexOf(this.at);
    const to = {ArrowDown: at + 1, ArrowUp: at - 1, PageDown: at + pageOf, PageUp: at - pageOf, Home: 0, End: length - 1}[event.key];
    if (to === undefined || event.ctrlKey || event.metaKey || event.altKey) return;
    event.preventDefault();
    this.lines.get(this.order[Math.min(Math.max(to, 0), length - 1)])?.button.focus();
  }
  came(id) {
    this.lines.get(this.at)?.button.setAttribute('tabindex', '-1');
    this.lines.get(id)?.button.setAttribute('tabindex', '0');
    this.at = id;
  }

  // A line under the keys stays when its request ends: what is typed next would be meant for it.
  shown() {
    const isHere = this.list.contains(document.activeElement);
    const all = [...this.model.requests.values()].filter(one => isOpen(one) || (isHere && one.id === this.at));
    return this.sorting.sort(all.sort((a, b) => a.deadline - b.deadline));
  }
  draw() {
    if (!this.isShown || !this.sorting) return;
    this.moment = this.now();
    const requests = this.shown();
    this.order = requests.map(one => one.id);
    arrange(this.list, requests.map(one => this.line(one).node));
    for (const id of this.lines.keys()) if (!this.order.includes(id)) this.lines.delete(id);
    if (!this.lines.has(this.at)) this.came(this.order[0]);
    show(this.empty, !requests.length);
  }
  line(request) {
    const line = this.lines.get(request.id) ?? this.add(request);
    const quote = this.quote(request), left = request.deadline - this.moment, is = isOpen(request);
    const cells = [is ? span(left) : 'ended', this.side(request), amount(request.quantity), this.model.bond(request.bond).name,
      quote ? text(quote.price) : this.model.isDealer() && request.declined ? 'declined' : '',
      ...(this.hasYields() ? [quote?.yield ? quote.yield.toFixed(3) : ''] : []), this.whom(request)];
    line.cells.forEach((cell, at) => set(cell, cells[at]));
    line.node.classList.toggle('soon', is && left < soon);
    line.node.classList.toggle('quiet', !is || Boolean(request.declined));
    const label = `${termsOf(request, this.model)}, ${this.state(request)}`;
    if (line.label !== label) line.button.setAttribute('aria-label', line.label = label);
    return line;
  }
  add(request) {
    const columns = this.columns(), {id} = request;
    const button = h('button', {type: 'button', className: 'line', tabIndex: -1, onclick: () => this.go(id), onfocus: () => this.came(id)});
    const span = h('span', {className: 'span'});
    const places = columns.map(({name, kind = ''}) => name === 'Bond' ? h('th', {scope: 'row'}, button) : h('td', {className: kind}));
    places[0].append(span);
    const cells = places.map((place, at) => at === 0 ? span : place.contains(button) ? button : place);
    const node = h('tr', {'data-side': request.side, onclick: event => event.target !== button && this.go(id)}, ...places);
    cells[1].classList.add('side');
    const line = {node, button, cells};
    this.lines.set(id, line);
    return line;
  }
}

// The form for a new request of an investor.
import {h, set, show} from './dom.js';
import {amount, clock, counted, parseAmount, parseSpan, span, spanWords, whyNoAmount} from './amounts.js';
import {BondField} from './bond_field.js';
import {DealerField, most as mostDealers} from './dealer_field.js';
import {FieldFaults} from './field_faults.js';
import {isOpen} from './model.js';
import {unsent} from './link.js';
import {PastedList} from './pasted_list.js';

const looked = 700;    // milliseconds: a press so soon behind `Again` was no look at what it filled in
const twinAfter = 600; // and one so soon behind the question about a twin was no answer
const twinFor = 8000;
const usual = '2:00';  // deadline
const leastSeconds = 5;         // in which a dealer can answer
const mostSeconds = 24 * 3600;

const narrow = matchMedia('(max-width: 760px)');

export class Ticket {
  constructor(model, link) {
    this.model = model;
    this.link = link;
    const draw = () => this.draw();
    this.bond = new BondField(model.hello.market.bonds, draw);
    this.buy = h('input', {type: 'radio', name: 'side', id: 'buy', value: 'buy'});
    this.sell = h('input', {type: 'radio', name: 'side', id: 'sell', value: 'sell'});
    this.quantity = h('input', {id: 'quantity', autocomplete: 'off', inputMode: 'decimal', placeholder: '2m', className: 'number'});
    this.deadline = h('input', {id: 'deadline', autocomplete: 'off', value: usual, className: 'number'});
    this.dealers = new DealerField(model.hello.market.dealers, model.hello.groups, link, draw);
    this.list = new PastedList(model, draw);
    this.sides = h('fieldset', {className: 'sides', onkeydown: event => this.pick(event)}, h('legend', {}, 'Side'),
      h('label', {className: 'pick'}, this.buy, 'Buy', h('kbd', {}, 'B')), h('label', {className: 'pick'}, this.sell, 'Sell', h('kbd', {}, 'S')));
    this.faultsOf = new FieldFaults({
      bond: {mark: this.bond.input, focus: this.bond.input}, side: {mark: this.sides, focus: this.buy},
      quantity: {mark: this.quantity, focus: this.quantity}, deadline: {mark: this.deadline, focus: this.deadline},
      dealers: {mark: this.dealers.node, focus: this.dealers.boxes[0]},
      lines: {mark: this.list.text, focus: this.list.text}});
    this.read = h('p', {className: 'quiet echo'});
    this.button = h('button', {type: 'submit', className: 'strong'});
    this.why = h('p', {className: 'why', role: 'alert'});
    this.filledAt = -looked;
    this.twin = null; // the open request that was asked about
    this.many = h('button', {type: 'button', className: 'small', id: 'many', 'aria-pressed': 'false', onclick: () => this.choose(!this.isMany())}, 'Paste a list');
    this.foldButton = h('button', {type: 'button', className: 'fold', onclick: () => this.fold()}, 'New request');
    this.node = h('form', {className: 'ticket', onsubmit: event => { event.preventDefault(); this.ask(); },
      oninput: event => { this.faultsOf.typed(event.target); set(this.why, ''); this.draw(); },
      onfocusout: event => { this.faultsOf.left(event.target); this.draw(); },
      onkeydown: event => {
        if (event.key === 'Escape') this.takeBack();
        if (event.key === 'Enter' && event.repeat) event.preventDefault();
      }},
      h('h2', {}, this.foldButton, this.many), ...this.single(), this.list.node,
      h('label', {htmlFor: 'deadline'}, 'Deadline in'), this.deadline, this.faultsOf.line('deadline'),
      this.dealers.node, this.faultsOf.line('dealers'), this.read, this.button, this.why);
    this.list.text.after(this.faultsOf.line('lines'));
    this.choose(false);
    this.fold(narrow.matches);
    show(this.many, Boolean(model.hello.mostLines));
  }
  // The fields of one request, which a list does not have.
  single() {
    const nodes = [h('label', {htmlFor: 'bond'}, 'Bond'), this.bond.node, this.faultsOf.line('bond'), this.sides, this.faultsOf.line('side'),
      h('label', {htmlFor: 'quantity'}, 'Quantity'), this.quantity, this.faultsOf.line('quantity')];
    for (const node of nodes) node.classList.add('single');
    return nodes;
  }
  isMany() { return this.node.classList.contains('list'); }
  // One request, or a list of them.
  choose(isMany) {
    this.node.classList.toggle('list', isMany);
    document.body.classList.toggle('lists', isMany);
    this.many.setAttribute('aria-pressed', String(isMany));
    this.faultsOf.forget();
    this.list.read();
    this.draw();
    if (isMany) this.list.text.focus();
  }
  fold(is = !this.node.classList.contains('folded')) {
    this.node.classList.toggle('folded', is);
    this.foldButton.setAttribute('aria-expanded', String(!is));
  }
  // The side is chosen anew: what the arrow keys make of it depends on what it was.
  focus() {
    this.fold(false);
    this.buy.checked = this.sell.checked = false;
    this.draw();
    if (this.isMany()) this.list.text.focus();
    else this.bond.input.focus();
  }
  pick(event) {
    const side = {b: this.buy, s: this.sell}[event.key.toLowerCase()];
    if (!side || event.ctrlKey || event.metaKey || event.altKey) return;
    side.checked = true;
    side.focus();
    event.preventDefault();
    this.draw();
  }
  // Escape empties one request, and takes the first press of a list back: what was pasted stays.
  takeBack() {
    this.first = null;
    if (this.isMany()) set(this.why, '');
    else this.clear();
  }
  clear() {
    this.bond.clear();
    this.quantity.value = '';
    this.buy.checked = this.sell.checked = false;
    this.faultsOf.forget();
    set(this.why, '');
    this.draw();
  }
  // As an earlier request was; nothing is sent.
  fill(request) {
    this.fold(false);
    if (this.isMany()) this.choose(false);
    this.bond.choose(this.model.bond(request.bond));
    this.buy.checked = request.side === 'buy';
    this.sell.checked = request.side === 'sell';
    this.quantity.value = amount(request.quantity);
    this.deadline.value = span(1000 * Math.round((request.deadline - request.made) / 1000));
    this.dealers.choose(request.dealers.map(one => one.name));
    this.filledAt = performance.now();
    this.faultsOf.forget();
    this.button.focus();
    this.node.scrollIntoView({block: 'nearest'});
  }
  // The desk is there, or there again: what could not be sent before is no news any more.
  begin() {
    if (this.why.textContent === unsent) set(this.why, '');
  }
  // Of a page that opens: the dealers of the trader's last request today, or of one before that this browser knows.
  preselect() {
    const {trader} = this.model.hello, own = [...this.model.requests.values()].filter(one => one.trader === trader.name);
    this.dealers.preselect(own.length ? own.at(-1).dealers.map(one => one.name) : this.kept());
  }
  kept() {
    try {
      return JSON.parse(localStorage.getItem(this.key())).filter(name => typeof name === 'string');
    } catch {
      return []; // nothing, or what something else has written there
    }
  }
  key() { return `dealers ${this.model.hello.firm} ${this.model.hello.trader.login}`; }
  // What stands in the fields, with null for what is missing.
  values() {
    return {bond: this.bond.bond, side: this.buy.checked ? 'buy' : this.sell.checked ? 'sell' : null,
      quantity: parseAmount(this.quantity.value), seconds: parseSpan(this.deadline.value), dealers: this.dealers.chosen()};
  }
  draw() {
    const values = this.values(), {side, dealers} = values;
    this.node.dataset.side = side ?? '';
    const faults = this.faults(values);
    this.faultsOf.show(faults);
    const wrong = faults.find(fault => fault.isWrong && !this.faultsOf.tells(fault)); // while it is typed
    set(this.read, wrong ? wrong.why : faults.length ? this.missing(faults, values) : this.summary(values));
    this.read.classList.toggle('why', Boolean(wrong));
    const count = this.list.lines.length, requests = this.isMany() && count ? ` for ${counted(count, 'request')}` : '';
    set(this.button, dealers.length === 0 ? 'Ask' : `Ask ${dealers.length} ${dealers.length === 1 ? 'dealer' : 'dealers'}${requests}`);
  }
  missing(faults, {quantity}) {
    const isRead = quantity && !this.isMany() && !faults.some(fault => fault.at === 'quantity');
    const names = faults.filter(fault => fault.what && !fault.isWrong).map(fault => fault.what);
    return `${names.length ? `Choose ${names.join(', ')}.` : ''}${isRead ? ` The quantity is ${amount(quantity)}.` : ''}`;
  }
  summary({bond, side, quantity, seconds}) {
    if (this.isMany()) return this.list.summary(seconds);
    return `${side === 'buy' ? 'Buy' : 'Sell'} ${amount(quantity)} ${bond.name}, answers within ${spanWords(seconds)}, ` +
      `until ${clock(this.link.now() + seconds * 1000)} UTC, in steps of 1/${bond.grid}`;
  }
  // What is missing or wrong, in the order of the fields.
  faults(values) {
    const first = this.isMany() ? this.list.faults() : this.faultsOfOne(values);
    return [...first, ...this.faultsOfAll(values)].filter(Boolean);
  }
  faultsOfOne({bond, side, quantity}) {
    const {hello} = this.model, isTyped = field => field.value.trim() !== '';
    const most = Math.min(hello.market.limits.quantity, hello.trader.quantity ?? Infinity);
    return [
      !bond && {at: 'bond', what: 'a bond', isWrong: this.bond.isUnknown(), why: this.bond.isUnknown()
        ? `No bond has \u201c${this.bond.input.value.trim()}\u201d in its name or identifier.`
        : 'Choose a bond: a part of its name or identifier will do.'},
      !side && {at: 'side', what: 'a side', why: 'Choose buy or sell.'},
      quantity === null && {at: 'quantity', what: 'a quantity', isWrong: isTyped(this.quantity),
        why: isTyped(this.quantity) ? whyNoAmount(this.quantity.value) : 'Type a quantity: 2,000,000, 2m or 500k.'},
      quantity > most && {at: 'quantity', isWrong: true, why: `${amount(quantity)} is above the limit of ${amount(most)} a request.`}];
  }
  faultsOfAll({seconds, dealers}) {
    const isTyped = this.deadline.value.trim() !== '';
    return [
      seconds === null && {at: 'deadline', what: 'a deadline', isWrong: isTyped,
        why: 'A deadline is a time from now: 90 (seconds), 2:00, 5m or 1h.'},
      seconds !== null && this.whyNotSeconds(seconds),
      !dealers.length && {at: 'dealers', what: 'dealers', why: 'Choose the dealers to ask.'},
      dealers.length > mostDealers && {at: 'dealers', isWrong: true,
        why: `${dealers.length} dealers are chosen: a request has ${mostDealers} at most.`}];
  }
  whyNotSeconds(seconds) {
    const now = this.link.now(), day = moment => new Date(moment).toISOString().slice(0, 10);
    if (seconds < leastSeconds) return {at: 'deadline', isWrong: true, why: `A deadline is ${leastSeconds} seconds away at least.`};
    return (seconds > mostSeconds || day(now + seconds * 1000) !== day(now)) &&
      {at: 'deadline', isWrong: true, why: 'The deadline is after midnight in UTC, when the venue\u2019s day ends.'};
  }
  // Whether a request like this one is open already, and the trader has not been asked about it.
  isDoubtful({bond, side, quantity}) {
    const moment = performance.now();
    const twin = [...this.model.requests.values()].find(one => isOpen(one) && one.bond === bond.id && one.side === side && one.quantity === quantity);
    if (!twin) return false;
    const asked = this.twin?.id === twin.id ? moment - this.twin.at : Infinity;
    if (asked > twinFor) this.twin = {id: twin.id, at: moment};
    return asked < twinAfter || asked > twinFor;
  }
  ask() {
    if (performance.now() - this.filledAt < looked) return set(this.why, 'Filled in just now: look at it, and press again.');
    this.bond.leave();
    const values = this.values(), [fault] = this.faults(values);
    if (fault) return this.faultsOf.blame(fault);
    if (this.isMany()) return this.askMany(values);
    if (this.isDoubtful(values)) return set(this.why, 'The same is open already. Press again to ask a second time.');
    const focus = document.activeElement; // a button that can't be pressed loses it
    this.button.disabled = true;
    this.link.act({do: 'ask', ...values, bond: values.bond.id}, refusal => this.asked(refusal, focus));
  }
  // By two presses: the first says what the second does.
  askMany({seconds, dealers}) {
    const moment = performance.now(), command = this.list.command(seconds, dealers, this.link.now());
    const terms = JSON.stringify([command.lines, seconds, dealers]), since = moment - (this.first?.terms === terms ? this.first.at : -Infinity);
    if (since > twinFor) {
      this.first = {terms, at: moment};
      return set(this.why, `Once more: ask ${counted(dealers.length, 'dealer')} to ${this.list.sums()}, in ${counted(command.lines.length, 'request')}.`);
    }
    if (since < twinAfter) return;
    this.first = null;
    const focus = document.activeElement;
    this.button.disabled = true;
    this.link.act(command, refusal => this.asked(refusal, focus));
  }
  asked(refusal, focus) {
    this.button.disabled = false;
    if (refusal && document.activeElement === document.body) focus.focus();
    if (!refusal) {
      localStorage.setItem(this.key(), JSON.stringify(this.dealers.chosen()));
      this.clear(); // the next one is chosen anew: none is sent twice by mistake
      this.list.clear();
      if (this.isMany()) this.choose(false);
      this.deadline.value = usual;
      if (narrow.matches) this.fold(true);
      else this.bond.input.focus();
    }
    set(this.why, refusal);
  }
  tick() { this.draw(); } // the time of the end moves on
}

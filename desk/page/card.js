// What the cards of both sides have: the head, the countdown, and the line that tells what happened.
import {h, set, show} from './dom.js';
import {amount, span} from './amounts.js';
import {hasTraded, isOpen} from './model.js';
import {label} from './presses.js';
import {todayWords} from './today.js';
import {helpWords} from './worked_out.js';

const said = 8000; // how long the desk's own words stand

export class Card {
  constructor(request, desk) {
    this.desk = desk; // {model, link, close(id), paper(request)}
    this.bond = desk.model.bond(request.bond);
    this.side = h('b', {className: 'side'});
    this.what = h('span', {className: 'what'});
    this.isin = h('span', {className: 'quiet isin'});
    this.left = h('span', {className: 'number left'});
    this.today = h('span', {className: 'number', title: 'This firm\u2019s own trades, and the last price on this desk. The venue tells nobody the trades of others.'});
    this.help = h('p', {className: 'quiet number help', title: 'Worked out by this desk from the data of the bond: a help, and no part of what the venue confirms.'});
    this.text = h('p', {className: 'told', role: 'status'});
    this.close = h('button', {type: 'button', className: 'small', onclick: () => desk.close(request.id)}, 'Close');
    this.paper = h('button', {type: 'button', className: 'small paper', onclick: () => desk.paper(this.request)}, 'Ticket');
    this.head = h('div', {className: 'head'}, this.side, this.what, this.left);
    this.node = h('article', {className: 'card', tabIndex: -1, 'data-made': request.made});
    this.own = ''; // why the desk did not do what was asked
    this.request = request;
  }
  is() { return isOpen(this.request); }
  isOff() { return !this.desk.model.isOn(); }
  say(why) {
    this.own = why;
    clearTimeout(this.timer);
    if (why) this.timer = setTimeout(() => this.say(''), said);
    this.update(this.request);
  }
  act(command) {
    this.desk.link.act({...command, request: this.request.id}, why => this.say(why));
  }
  drawHead(side) {
    const request = this.request;
    set(this.side, side);
    set(this.what, `${amount(request.quantity)}  ${this.bond.name}`);
    set(this.isin, this.bond.name === request.bond ? '' : request.bond);
    set(this.help, helpWords(request, this.bond));
    show(this.help, Boolean(this.help.textContent));
    this.node.dataset.state = request.state;
    this.node.dataset.side = request.side;
    this.node.setAttribute('aria-label', this.name(side));
    for (const button of [this.close, this.paper]) label(button, this.name(side));
    show(this.close, !this.is());
    show(this.paper, hasTraded(request));
  }
  // Which request it is, in words.
  name(side) { return `${side} ${amount(this.request.quantity)} ${this.bond.name}`; }
  // What was sent and is not answered, in words; an empty text where there is nothing.
  waits() {
    const [first] = this.request.pending;
    if (!first) return '';
    const what = first.act[0].toUpperCase() + first.act.slice(1);
    if (!this.desk.model.isLinked) return `${what} sent, not answered: no connection to the desk`;
    if (this.desk.model.isOn()) return `${what} sent, not answered yet`;
    return first.act === 'withdrawal'
      ? `${what} not answered: it is delivered as soon as the venue is back`
      : `${what} sent, not answered. If it did not arrive, it never will`;
  }
  tick(moment) {
    const left = this.request.deadline - moment;
    show(this.today, this.is());
    if (this.is()) set(this.today, todayWords(this.desk.model, this.request));
    set(this.left, !this.is() ? '' : left > 0 ? span(left) : 'over');
    this.left.classList.toggle('soon', this.is() && left < 15_000);
    return left;
  }
}

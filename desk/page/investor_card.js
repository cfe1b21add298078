// An investor's request: its dealers, their quotes, and the hit, which takes two presses.
import {h, set, show, arrange} from './dom.js';
import {aligned, apart, inMode, text} from './price.js';
import {amount, clock, span} from './amounts.js';
import {Card} from './card.js';
import {isOver, ranked} from './model.js';
import {doubleClick, label, query, twoPresses} from './presses.js';
import {percent} from './worked_out.js';

const guard = 500;   // a press so soon behind a change was meant for what stood there before
const armedFor = 4000;
const replacedWithin = 1000; // a quote that went and the dealer's next one come in two messages
const freshFor = 6000; // as long an arrow says that the price of a dealer has changed

const answers = {none: 'waiting', declined: 'declined', 'took back': 'withdrew'};

// Whether an investor's request has a quote that somebody could hit.
export const wantsHit = request => request.state === 'open' && request.dealers.some(one => one.answer === 'quoted');

export class InvestorCard extends Card {
  constructor(request, desk) {
    super(request, desk);
    this.rows = new Map();
    this.order = []; // of the rows, by dealer
    this.armed = null;
    this.quietUntil = 0;
    this.list = h('tbody');
    this.price = h('th', {className: 'number quoted', scope: 'col'});
    this.state = h('span', {className: 'quiet'});
    this.who = h('span', {className: 'quiet who'});
    this.pass = twoPresses('Pass', 'pass', () => {
      this.act({do: 'pass'});
      this.node.focus({preventScroll: true});
    });
    const head = (name, kind = 'number') => h('th', {scope: 'col', className: kind}, name);
    const yields = this.bond.priced ? [h('th', {scope: 'col', className: 'number yield', title: 'A help, worked out by this desk'}, 'Yield')] : [];
    this.table = h('table', {className: `quotes${this.bond.priced ? ' priced' : ''}`}, h('thead', {}, h('tr', {}, head('Dealer', 'who'), this.price, ...yields,
      head('32nds off', 'number off'), head('Valid', 'number valid'), h('th', {scope: 'col', className: 'do'}, h('span', {className: 'unseen'}, 'Hit')))), this.list);
    this.node.append(this.head, h('p', {className: 'quiet today'}, this.isin, this.who, this.today), this.help, this.table,
      h('div', {className: 'foot'}, this.state, this.text, this.paper, this.close, this.pass));
    this.node.addEventListener('keydown', event => this.key(event));
  }
  // Whether a person should look at it.
  wants() { return wantsHit(this.request); }
  focus() {
    const find = where => this.node.querySelector(`${where} button.hit:not(:disabled)`);
    (find('.best') ?? find('') ?? this.pass).focus();
    this.node.scrollIntoView({block: 'nearest'});
  }
  key(event) {
    if (event.key === 'Escape') this.disarm();
    if (event.key === 'Enter' && event.target === this.node && !event.repeat && this.is() && !this.request.pending.length) this.say('Nothing is chosen: an arrow or F3 goes to a quote.');
    if (event.key !== 'ArrowDown' && event.key !== 'ArrowUp') return;
    const buttons = [...this.node.querySelectorAll('button')].filter(one => !one.disabled && one.offsetParent);
    const at = buttons.indexOf(document.activeElement) + (event.key === 'ArrowDown' ? 1 : -1);
    buttons[(at + buttons.length) % buttons.length]?.focus();
    event.preventDefault();
  }
  disarm() {
    clearTimeout(this.armed?.timer);
    this.armed = null;
    this.update(this.request);
  }
  lapse() {
    this.disarm();
    this.say(`Nothing was sent: the second press has to come within ${armedFor / 1000} seconds.`);
  }
  choose({id, dealer, price}) {
    this.armed = {id, dealer, price, at: performance.now(), timer: setTimeout(() => this.lapse(), armedFor)};
  }
  // The first press shows what the second one does.
  hit(quote) {
    const moment = performance.now();
    if (moment < this.quietUntil) return this.say('A quote changed under your press: look again.');
    if (this.armed?.id !== quote.id) {
      this.disarm();
      this.own = '';
      this.choose(quote);
      return this.update(this.request);
    }
    if (moment - this.armed.at < doubleClick) return;
    this.disarm();
    this.act({do: 'hit', quote: quote.id, price: quote.price});
    this.node.focus({preventScroll: true});
  }
  row(name) {
    if (this.rows.has(name)) return this.rows.get(name);
    const row = {
      name: h('th', {scope: 'row', className: 'who'}, name), price: h('td', {className: 'number price'}), yield: h('td', {className: 'number yield'}), off: h('td', {className: 'number off'}),
      valid: h('td', {className: 'number valid'}), done: h('b', {}, 'Done'), quote: null};
    row.word = h('span');
    row.button = h('button', {type: 'button', className: 'hit', 'data-binds': 'hit', onclick: () => row.quote && this.hit(row.quote)}, row.word, query());
    row.node = h('tr', {}, row.name, row.price, ...(this.bond.priced ? [row.yield] : []), row.off, row.valid, h('td', {className: 'do'}, row.button, row.done));
    this.rows.set(name, row);
    return row;
  }
  update(request) {
    this.request = request;
    const best = ranked(request, this.moment());
    if (!this.is()) this.own = ''; // what counts now is how it ended
    this.drawHead(request.side === 'buy' ? 'BUY' : 'SELL');
    set(this.price, request.side === 'buy' ? 'Offer' : 'Bid');
    set(this.who, request.program ? `by the program ${request.program}` : request.trader === this.desk.model.hello.trader.name ? '' : `by ${request.trader}`);
    this.guardPresses(best);
    this.keepChoice(best);
    this.drawRows(best);
    this.drawFoot(best);
    label(this.pass, this.name(request.side === 'buy' ? 'BUY' : 'SELL'));
    show(this.table, request.state !== 'refused' && request.state !== 'undelivered');
    this.tick(this.desk.link.now());
    this.focusChoice();
  }
  guardPresses(best) {
    const signature = JSON.stringify(best.map(quote => [quote.id, quote.price]));
    if (this.signature !== undefined && signature !== this.signature) {
      this.quietUntil = performance.now() + guard;
    }
    this.signature = signature;
  }
  // A first press stands while its quote does, or a quote of the same dealer that is no worse; it is over where the
  // request has ended, or a colleague has acted on it.
  keepChoice(best) {
    const {armed, request} = this;
    if (!armed) return;
    const [first] = request.pending;
    if (!this.is() || first) return this.takeBack(this.is() ? `The ${first.act} of ${first.trader} is sent: your first press is taken back.` : '');
    if (best.some(quote => quote.id === armed.id)) return;
    const next = best.find(quote => quote.dealer === armed.dealer && !isOver(quote, this.moment()));
    if (!next) return this.awaitNext();
    const worse = (next.price - armed.price) * (request.side === 'buy' ? 1 : -1);
    if (worse > 0) return this.takeBack(`${next.dealer} went from ${text(armed.price)} to ${text(next.price)}, which is worse: your first press is taken back.`);
    clearTimeout(armed.timer);
    this.choose(next);
    this.own = worse < 0 ? `${next.dealer} has improved ${text(armed.price)} to ${text(next.price)}.` : '';
  }
  // The dealer's next quote may come at once; until then there is nothing to press.
  awaitNext() {
    if (this.armed.isGone) return;
    clearTimeout(this.armed.timer);
    this.armed.isGone = true;
    this.armed.timer = setTimeout(() => { this.armed = null; }, replacedWithin);
    this.leaveRow(`${this.armed.dealer} has withdrawn the ${text(this.armed.price)} that you chose: your first press is taken back.`);
  }
  takeBack(why) {
    clearTimeout(this.armed.timer);
    this.armed = null;
    this.leaveRow(why);
  }
  // Or the next two presses hit what takes the place of this row.
  leaveRow(why) {
    this.own = why;
    if (this.node.contains(document.activeElement)) this.node.focus({preventScroll: true});
  }
  // Where the chosen quote came back, better, the keys go on from it.
  focusChoice() {
    if (!this.armed || this.armed.isGone || document.activeElement !== this.node) return;
    this.rows.get(this.armed.dealer)?.button.focus({preventScroll: true});
  }
  // Now, or when the request ended.
  moment() { return this.request.ended ?? this.desk.link.now(); }
  drawRows(best) {
    const quoted = new Set(best.map(quote => quote.dealer));
    const others = this.request.dealers.filter(one => !quoted.has(one.name));
    const nodes = new Map([...best.map(quote => [quote.dealer, this.drawQuote(quote, best[0])]), ...others.map(one => [one.name, this.drawOther(one)])]);
    const sorted = [...nodes.keys()];
    this.order = this.isTouched() && this.order.length === sorted.length ? this.order : sorted;
    this.isSorted = this.order.join() === sorted.join();
    arrange(this.list, this.order.map(name => nodes.get(name)));
  }
  // While somebody works in a card its rows stay where they are: the best is marked, and stands first afterwards.
  isTouched() { return this.is() && (this.node.matches(':hover') || this.node.contains(document.activeElement)); }
  drawQuote(quote, first) {
    const row = this.row(quote.dealer), buys = this.request.side === 'buy';
    const isArmed = this.armed?.id === quote.id;
    row.quote = quote;
    this.drawPrice(row, quote);
    set(row.yield, quote.yield === null || quote.yield === undefined ? '' : quote.yield.toFixed(3));
    set(row.off, isOver(quote, this.moment()) ? '' : quote.price === first.price ? 'best' : apart(quote.price - first.price, this.bond.grid));
    set(row.word, buys ? 'Buy' : 'Sell');
    row.button.setAttribute('aria-label', `${isArmed ? 'Confirm: ' : ''}${buys ? 'buy from' : 'sell to'} ${quote.dealer} ` +
      `at ${text(quote.price)}${quote.yield ? `, ${percent(quote.yield)}` : ''}: ${amount(this.request.quantity)} ${this.bond.name}`);
    row.button.classList.toggle('armed', isArmed);
    show(row.button, this.is());
    show(row.done, quote.state === 'hit');
    row.node.className = quote.state === 'hit' ? 'won' : quote === first && !isOver(quote, this.moment()) ? 'best' : '';
    return row.node;
  }
  drawPrice(row, quote) {
    const moment = performance.now();
    if (row.seen !== undefined && row.seen !== quote.price) row.change = {mark: quote.price > row.seen ? '\u25b2 ' : '\u25bc ', until: moment + freshFor};
    row.seen = quote.price;
    set(row.price, (moment < row.change?.until ? row.change.mark : '') + aligned(quote.price, this.bond.grid));
  }
  drawOther(dealer) {
    const row = this.row(dealer.name);
    row.quote = null;
    set(row.yield, '');
    set(row.price, !this.is() && dealer.answer === 'none' ? 'no quote' : answers[dealer.answer] ?? '');
    set(row.off, '');
    set(row.valid, '');
    show(row.button, false);
    show(row.done, false);
    row.node.className = 'none';
    return row.node;
  }
  drawFoot(best) {
    const request = this.request, buys = request.side === 'buy', waits = this.waits();
    const armed = best.find(quote => quote.id === this.armed?.id);
    set(this.state, armed || this.own ? '' : waits || (this.is() ? this.answered(best) : ''));
    const better = armed && armed.price !== best[0].price ? `. NOT THE BEST: ${best[0].dealer} has ${text(best[0].price)}` : '';
    const press = this.own ? `${this.own} ` : ''; // why the last one did nothing
    set(this.text, armed
      ? `${press}Once more: ${buys ? 'buy' : 'sell'} ${amount(request.quantity)} at ${text(armed.price)} ${buys ? 'from' : 'to'} ${armed.dealer}${better}`
      : this.own || (this.is() ? (request.told?.refusal ? inMode(request.told.text) : '') : this.result()));
    this.text.classList.toggle('why', !armed && Boolean(this.own || (request.told?.refusal && request.state !== 'done')));
    this.text.classList.toggle('ask', Boolean(armed));
    this.text.classList.toggle('bad', Boolean(better));
  }
  // How many of the dealers have a quote that stands, and what the others did.
  answered(best) {
    const over = best.filter(quote => isOver(quote, this.moment())).length, {dealers} = this.request;
    const counts = [[over, 'over'], ...Object.entries(answers).map(([answer, word]) => [dealers.filter(one => one.answer === answer).length, word])];
    return [`${best.length - over} of ${dealers.length} quoted`, ...counts.filter(([count]) => count).map(part => part.join(' '))].join(', ');
  }
  result() {
    const request = this.request;
    if (request.state !== 'done') return `${inMode(request.told?.text ?? '')}, ${clock(request.ended)} UTC`;
    const buys = request.side === 'buy';
    const cover = request.cover ? `Cover ${text(request.cover.price)}, ${request.cover.dealer}.` : 'No cover.';
    const trade = request.trade ? ` Trade ${request.trade}.` : '';
    return `${buys ? 'Bought' : 'Sold'} ${amount(request.quantity)} at ${text(request.award.price)} ${buys ? 'from' : 'to'} ` +
      `${request.award.dealer}, ${clock(request.ended)} UTC. ${cover}${trade}`;
  }
  tick(moment) {
    const left = super.tick(moment), request = this.request, is = this.is();
    const isFree = is && left > 0 && request.state === 'open' && !request.pending.length && !this.isOff() && this.desk.model.mayAct();
    this.pass.disabled = !is || request.state !== 'open' || request.pending.length > 0 || this.isOff() || !this.desk.model.mayAct();
    show(this.pass, is);
    const over = request.quotes.filter(quote => isOver(quote, moment)).length;
    if (is && (this.over !== over || (!this.isSorted && !this.isTouched()))) { // the order changes
      this.over = over;
      return this.update(request);
    }
    for (const row of this.rows.values()) if (row.quote) this.tickRow(row, moment, isFree);
  }
  tickRow(row, moment, isFree) {
    const quote = row.quote, is = this.is(), wasOver = isOver(quote, this.request.ended ?? moment);
    const left = quote.valid === null ? 'to end' : wasOver ? 'over' : is ? span(quote.valid - moment) : '';
    set(row.valid, !is && !wasOver ? '' : left);
    this.drawPrice(row, quote);
    row.node.classList.toggle('over', wasOver);
    row.button.disabled = !isFree || wasOver;
  }
}

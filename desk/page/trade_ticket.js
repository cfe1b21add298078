// The ticket of a trade, to print or to save: what the venue has confirmed, and beside it what this desk works out.
import {h, set} from './dom.js';
import {amount, clock, money} from './amounts.js';
import {save} from './csv.js';
import {decimal, thirtySeconds} from './price.js';

const wide = 28; // characters that a name takes in a file

// What a trade's own terms are, as [NAME, VALUE]; all of it is the venue's.
export function agreed(request, model) {
  const {hello} = model, isDealer = model.isDealer(), investorBuys = request.side === 'buy';
  const investor = isDealer ? request.investor : hello.firm, dealer = isDealer ? hello.firm : request.award.dealer;
  const price = isDealer ? request.result : request.award.price, bond = model.bond(request.bond);
  const own = isDealer ? request.quotes.find(quote => quote.state === 'hit')?.trader : request.award.trader ?? request.trader;
  return [
    ['Trade', request.trade], ['Traded, UTC', `${new Date(request.ended).toISOString().slice(0, 10)} ${clock(request.ended)}`],
    ['Buyer', investorBuys ? investor : dealer], ['Seller', investorBuys ? dealer : investor],
    ['Bond', bond.name], ['Identifier', request.bond], ['Nominal', amount(request.quantity)],
    ['Price', `${decimal(price)} (${thirtySeconds(price)})`], [`Trader of ${hello.firm}`, own ?? ''], ['Request', request.id]];
}

// What this desk works out of the bond's data, as [NAME, VALUE]; nothing where it has none.
export function workedOut(request, model) {
  const {amounts, settles, accrued} = request, {currency = ''} = model.bond(request.bond);
  if (!amounts) return [];
  const yields = model.isDealer() ? request.resultYield : request.award.yield, cash = value => `${money(value)} ${currency}`.trim();
  return [
    ['Settlement date', settles], ['Yield', percent(yields)], ['Accrued interest of 100', String(accrued)],
    ['Principal', cash(amounts.principal)], ['Accrued interest', cash(amounts.accrued)], ['The buyer pays', cash(amounts.total)]];
}

const percent = value => value === null || value === undefined ? '' : `${value.toFixed(4)} %`;
const help = 'Worked out by this desk from the data of the bond: a help, and no part of what the venue confirmed.';
const none = 'This desk has no data of the bond: it works out no settlement date, accrued interest or amounts.';

export class TradeTicket {
  constructor(model) {
    this.model = model;
    this.title = h('h2', {id: 'paper-title'});
    this.terms = h('dl', {className: 'terms'});
    this.note = h('p', {className: 'quiet'});
    this.more = h('dl', {className: 'terms'});
    this.print = h('button', {type: 'button', onclick: () => window.print()}, 'Print');
    this.save = h('button', {type: 'button', onclick: () => this.keep()}, 'Save');
    this.close = h('button', {className: 'strong'}, 'Close');
    this.node = h('dialog', {id: 'paper', 'aria-labelledby': 'paper-title'}, this.title, this.terms, this.note, this.more,
      h('form', {method: 'dialog', className: 'foot'}, this.print, this.save, this.close));
  }
  open(request) {
    this.request = request;
    const lines = list => list.flatMap(([name, value]) => [h('dt', {}, name), h('dd', {}, value)]);
    const more = workedOut(request, this.model);
    set(this.title, `Trade ticket of ${this.model.hello.firm}`);
    this.terms.replaceChildren(...lines(agreed(request, this.model)));
    set(this.note, more.length ? help : none);
    this.more.replaceChildren(...lines(more));
    this.node.showModal();
    this.close.focus(); // one more Enter prints nothing
  }
  keep() {
    const {request, model} = this, more = workedOut(request, model);
    const line = ([name, value]) => `${name.padEnd(wide)}${value}`;
    const text = [this.title.textContent, '', ...agreed(request, model).map(line), '', more.length ? help : none, ...more.map(line), ''].join('\r\n');
    save(`ticket-${request.trade.replaceAll(/[^\w.-]/g, '_')}.txt`, text, 'text/plain');
  }
}

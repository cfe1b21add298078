// The day's requests: first what is open, then what ended last, or in the order of a column.
import {h, arrange, set, show, whole} from './dom.js';
import {aligned, decimal, inMode, mode, text, thirtySeconds} from './price.js';
import {amount, clock, counted, parseAmount} from './amounts.js';
import {csv, money, save} from './csv.js';
import {hasTraded, isOpen, isOver, ranked} from './model.js';
import {Days, dayWords} from './days.js';
import {Positions} from './positions.js';
import {Sorting} from './sorting.js';
import {helpWords, percent} from './worked_out.js';

const page = 100; // rows shown at first, and with each press more

const ends = {
  open: 'Open', sent: 'Sent', refused: 'Refused', undelivered: 'Not delivered', done: 'DONE', passed: 'Passed',
  expired: 'Expired', cover: 'Cover', away: 'Done away'};

// What the desk works out itself is called a help in the file, too.
const helpHeads = ['help_settles', 'help_yield', 'help_accrued_of_100', 'help_principal', 'help_accrued', 'help_total', 'help_currency'];

const when = request => (request.ended ? 0 : 1e15) + (request.ended || request.made);

export class Blotter {
  // acts are {tell(words): says a line for a while, repeat(request): of an investor, fills the ticket, paper(request):
  // opens the ticket of a trade}.
  constructor(model, link, acts) {
    this.model = model;
    this.acts = acts;
    this.days = new Days(model, link, () => this.change());
    this.rows = new Map();
    this.shown = page;
    this.positions = new Positions(model);
    this.list = h('tbody');
    this.sums = h('span', {className: 'quiet sums', role: 'status'});
    this.filter = h('input', {type: 'search', id: 'filter', placeholder: 'filter', 'aria-label': 'Filter by bond, firm, side, result, quantity or price', oninput: () => this.type()});
    this.ends = h('select', {id: 'ends', 'aria-label': 'Which results', onchange: () => this.draw()},
      ...[['', 'all'], ['open', 'open'], ['done', 'done'], ['other', 'not done']].map(([value, name]) => h('option', {value}, name)));
    this.more = h('button', {type: 'button', className: 'small more', onclick: () => { this.shown += page; this.draw(); }});
    const isDealer = model.isDealer();
    this.sorting = new Sorting(this.columns(isDealer), () => this.draw());
    this.node = h('div', {},
      h('div', {className: 'bar'}, this.days.title, this.days.choice, this.filter, this.ends, this.sorting.choice,
        h('button', {type: 'button', className: 'small export', onclick: () => this.export()}, 'Export CSV'), this.sums, this.days.said),
      this.positions.node,
      h('table', {className: 'blotter'},
        h('thead', {}, h('tr', {}, ...this.sorting.heads, h('th', {scope: 'col'}, 'Note'))), this.list), this.more);
  }
  // A day that begins, or a page that has been away.
  begin() {
    this.days.begin();
    this.draw();
  }
  type() {
    this.days.typed(this.filter.value);
    this.draw();
  }
  // Another day has other requests of the same names.
  change() {
    this.rows.clear();
    this.shown = page;
    this.draw();
  }
  columns(isDealer) {
    return [
      {name: 'Asked, UTC', of: one => one.made, isNumber: true}, {name: 'Ended', of: one => one.ended, isNumber: true},
      {name: 'Side', of: one => this.side(one)}, {name: 'Quantity', of: one => one.quantity, isNumber: true, kind: 'number'},
      {name: 'Bond', of: one => this.model.bond(one.bond).name},
      {name: isDealer ? 'My price' : 'Price', of: one => this.price(one), isNumber: true, kind: 'number'},
      {name: isDealer ? 'Investor' : 'Dealer', of: one => this.whom(one)}, {name: 'Result', of: one => this.end(one)},
      {name: 'Trader', of: one => this.trader(one)}];
  }
  side(request) {
    const buys = request.side === 'buy';
    return this.model.isDealer() ? (buys ? 'Offer' : 'Bid') : buys ? 'Buy' : 'Sell';
  }
  // A dealer's own last accepted one; an investor's only where it traded.
  price(request) {
    if (!this.model.isDealer()) return request.award?.price;
    return request.result ?? request.quotes.filter(quote => !['sent', 'refused', 'undelivered'].includes(quote.state)).at(-1)?.price;
  }
  end(request) { return request.day && isOpen(request) ? 'No end' : ends[request.state] ?? request.state; }
  whom(request) { return this.model.isDealer() ? request.investor : request.award?.dealer ?? ''; }
  trader(request) {
    if (!this.model.isDealer()) return request.award?.trader ?? request.trader;
    return request.quotes.at(-1)?.trader ?? '';
  }
  // write(price) is how prices stand in it.
  note(request, write = text) {
    if (request.told?.refusal && !hasTraded(request)) return write === decimal ? request.told.text : inMode(request.told.text);
    if (this.model.isDealer()) {
      return request.declined ? 'declined' : request.quotes.at(-1)?.state === 'withdrawn' ? 'withdrawn'
        : request.quotes.some(quote => quote.state === 'ended' && isOver(quote, request.ended)) ? 'stale at the end'
        : request.quotes.length > 1 ? `${request.quotes.length} quotes` : request.quotes.length || isOpen(request) ? '' : 'no quote';
    }
    if (hasTraded(request)) return request.cover ? `cover ${write(request.cover.price)}, ${request.cover.dealer}` : 'no cover';
    if (isOpen(request)) {
      return `${request.dealers.filter(one => one.answer === 'quoted').length} of ${request.dealers.length} quoted`;
    }
    const [best] = ranked(request, request.ended);
    return best ? `best ${write(best.price)}, ${best.dealer}` : `${request.dealers.length} asked`;
  }
  // Those that the filter lets through, in order.
  chosen() {
    const words = this.filter.value.toLowerCase().split(/\s+/).filter(Boolean), ending = this.ends.value;
    const fits = request => {
      const is = !ending || (ending === 'open' ? isOpen(request) : ending === 'done' ? hasTraded(request) : !isOpen(request) && !hasTraded(request));
      if (!is || !words.length) return is;
      const price = this.price(request);
      const own = [this.side(request), this.model.bond(request.bond).name, request.bond, this.whom(request), this.trader(request),
        this.end(request), request.trade, ...(price ? [decimal(price), thirtySeconds(price)] : [])].join(' ').toLowerCase();
      return words.every(word => own.includes(word) || parseAmount(word) === request.quantity);
    };
    return this.sorting.sort(this.days.requests().reverse().filter(fits).sort((a, b) => when(b) - when(a)));
  }
  draw() {
    const chosen = this.chosen();
    this.positions.draw(this.days.isToday());
    arrange(this.list, chosen.slice(0, this.shown).map(request => this.row(request)));
    show(this.more, chosen.length > this.shown);
    set(this.more, `Show ${Math.min(page, chosen.length - this.shown)} more of ${amount(chosen.length)}`);
    set(this.sums, this.sum(chosen));
  }
  // Whether the filter or the choice of results hides some.
  isPart() { return Boolean(this.filter.value.trim() || this.ends.value); }
  sum(chosen) {
    const done = chosen.filter(hasTraded), isDealer = this.model.isDealer();
    const of = side => done.filter(one => one.side === side).reduce((sum, one) => sum + one.quantity, 0);
    const all = counted(this.days.requests().length, 'request'), part = this.isPart() ? `${amount(chosen.length)} of ${all}` : all;
    return `${part}, ${amount(done.length)} done: bought ${amount(of(isDealer ? 'sell' : 'buy'))}, sold ${amount(of(isDealer ? 'buy' : 'sell'))}`;
  }
  row(request) {
    const key = `${request.day ?? ''} ${request.id}`, before = this.rows.get(key);
    if (before?.request === request && before.as === mode.thirtySeconds) return before.node;
    const lines = request.history.map(one => h('div', {className: one.refusal ? 'why' : ''}, h('span', {className: 'number'}, clock(one.at)), ' ',
      one.trader ? h('b', {}, `${one.trader} `) : '', ...whole(inMode(one.text))));
    const history = h('details', {}, h('summary', {}, ...whole(this.note(request) || 'history')), ...lines,
      ...(request.trade ? [h('div', {}, `Trade ${request.trade}`)] : []), ...this.help(request));
    history.open = before?.history.open ?? false;
    const cell = (value, kind = '') => h('td', {className: kind}, value);
    const bond = this.model.bond(request.bond), price = this.price(request);
    const node = h('tr', {className: `${hasTraded(request) ? 'traded' : ''} ${request.ended ? 'ended' : ''} ${this.days.areMany() ? 'dated' : ''}`},
      cell(`${this.days.areMany() ? `${dayWords(request.day)} ` : ''}${clock(request.made)}`, 'number asked'), cell(clock(request.ended), 'number at'),
      cell(this.side(request), 'which'), cell(amount(request.quantity), 'number size'),
      cell(bond.name, 'bond'), cell(price ? aligned(price, bond.grid) : '', 'number price'), cell(this.whom(request), 'whom'),
      cell(this.end(request), 'end'), cell(this.trader(request), 'trader'), h('td', {className: 'note'}, h('div', {}, history, ...this.buttons(request))));
    this.rows.set(key, {request, as: mode.thirtySeconds, node, history});
    return node;
  }
  // What follows from the data of its bond, and of a trade its yield.
  help(request) {
    const words = helpWords(request, this.model.bond(request.bond)), rate = percent(this.yield(request));
    return words ? [h('div', {className: 'quiet'}, `${words}${rate && hasTraded(request) ? `, yield ${rate}` : ''}`)] : [];
  }
  yield(request) { return hasTraded(request) ? (this.model.isDealer() ? request.resultYield : request.award.yield) : undefined; }
  buttons(request) {
    const {repeat, paper} = this.acts, of = `${this.side(request)} ${amount(request.quantity)} ${this.model.bond(request.bond).name}`;
    const button = (name, does, act) => h('button', {type: 'button', className: 'small again', 'aria-label': `${does}: ${of}`, onclick: act}, name);
    return [...(repeat && !request.day ? [button('Again', 'Ask again', () => repeat(request))] : []),
      ...(hasTraded(request) ? [button('Ticket', 'Ticket of the trade', () => paper(request))] : [])];
  }
  hasHelp() { return this.model.hello.market.bonds.some(bond => bond.priced); }
  helpCells(request) {
    const {settles, accrued, amounts} = request;
    return [settles ?? '', this.yield(request) ?? '', accrued ?? '', money(amounts?.principal), money(amounts?.accrued), money(amounts?.total),
      settles ? this.model.bond(request.bond).currency ?? '' : ''];
  }
  // Prices are decimals, whatever the page shows; `price` is that of a trade, so that it can be summed.
  export() {
    const {firm, date} = this.model.hello, isDealer = this.model.isDealer();
    const moment = at => at ? new Date(at).toISOString() : '';
    const number = price => price ? Number(decimal(price)) : '';
    const head = ['request', 'asked_utc', 'ended_utc', 'side', 'quantity', 'bond', 'bond_name', 'price', 'counterparty', 'result', 'trader', 'trade',
      isDealer ? 'last_quote' : 'cover', 'note', ...(this.hasHelp() ? helpHeads : [])];
    const rows = this.chosen().map(one => [one.id, moment(one.made), moment(one.ended), this.side(one), one.quantity, one.bond,
      this.model.bond(one.bond).name, hasTraded(one) ? number(this.price(one)) : '', this.whom(one), this.end(one), this.trader(one), one.trade,
      number(isDealer ? this.price(one) : one.cover?.price), this.note(one, decimal), ...(this.hasHelp() ? this.helpCells(one) : [])]);
    const day = this.days.isToday() ? date : this.days.day === 'all' ? 'earlier' : this.days.day.replaceAll('-', '');
    const file = `${firm}-${day}${this.isPart() ? '-filtered' : ''}.csv`;
    save(file, csv([head, ...rows]));
    this.acts.tell(`${file}: ${counted(rows.length, 'request')}`);
  }
}

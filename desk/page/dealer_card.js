// A request that a dealer is shown: a price to send or to replace, and how the request ended.
import {h, keepFocus, looksDead, set, show} from './dom.js';
import {decimal, inMode, other, parse, parseQuote, text, thirtySeconds} from './price.js';
import {amount, clock, money, span} from './amounts.js';
import {Card} from './card.js';
import {isOver, liveQuote} from './model.js';
import {label, twoPresses} from './presses.js';
import {questionOf, whyTooMuch} from './price_guard.js';
import {Claim} from './claim.js';
import {TypedWord} from './typed_word.js';
import {WorkedOut, parseYield, percent} from './worked_out.js';

const confirmAfter = 600; // milliseconds: a press before that was no answer to the question
const again = question => `${question.why}: Enter again if it is meant.`;
const validities = [['0', 'to deadline'], ['10', '10 s'], ['30', '30 s'], ['60', '1 min'], ['300', '5 min']];

export class DealerCard extends Card {
  constructor(request, desk) {
    super(request, desk);
    this.sure = null;
    this.entry = h('input', {className: 'number entry', autocomplete: 'off', inputMode: 'decimal', 'data-binds': 'price',
      oninput: () => this.anew(), onkeydown: event => this.press(event)});
    this.seconds = h('select', {className: 'seconds', 'aria-label': 'Valid for'},
      ...validities.map(([value, name]) => h('option', {value}, name)));
    this.isMissing = false; // a price that was to be sent
    this.unsent = '';       // what was typed when the request ended
    this.echo = h('p', {className: 'quiet number echo', role: 'status'});
    this.button = h('button', {type: 'button', className: 'strong send', 'data-binds': 'send', onclick: () => this.send()});
    // Not guarded: a withdrawal is never refused.
    this.withdraw = h('button', {type: 'button', className: 'withdraw', onclick: () => this.act({do: 'withdraw'})}, 'Withdraw');
    this.decline = twoPresses('Decline', 'decline', () => this.act({do: 'decline'}));
    this.decline.addEventListener('click', () => this.claim.isOthers() && this.say(`${this.claim.whose()}.`));
    this.claim = new Claim(desk, command => this.act(command));
    this.word = new TypedWord(() => this.deliver(this.sure.price), () => this.entry.focus());
    this.worked = new WorkedOut(desk.link, this.bond, () => this.read());
    this.live = h('span', {className: 'live'});
    this.whom = h('b');
    this.form = h('div', {className: 'form'}, this.entry, this.seconds, this.button);
    this.foot = h('div', {className: 'foot'}, this.echo, this.claim.take, this.withdraw, this.decline);
    this.node.append(this.head, h('p', {className: 'about'}, this.whom, ' ', this.isin, ' ', this.live), h('p', {className: 'quiet today'}, this.today),
      this.help, this.form, this.foot, this.word.node, this.claim.node, // what comes and goes stands below: no button moves by it
      h('div', {className: 'foot said'}, this.text, this.paper, this.close));
  }
  // Whether a person should look at it.
  wants() { return this.is() && !this.request.declined && !liveQuote(this.request) && !this.request.pending.length; }
  focus() {
    this.entry.focus();
    this.entry.select();
    this.node.scrollIntoView({block: 'nearest'});
  }
  press(event) {
    const step = {ArrowUp: 1, ArrowDown: -1}[event.key];
    if (event.key === 'Enter') { // one that is held down is one press
      if (!event.repeat) this.send();
    } else if (event.key === 'Escape') {
      this.clear();
    } else if (step) {
      this.move(step);
    } else {
      return;
    }
    event.preventDefault();
  }
  // What was said of the price before counts no more.
  anew() {
    this.ask(null);
    this.isMissing = false;
    this.say('');
  }
  clear() {
    this.entry.value = '';
    this.anew();
  }
  move(step) {
    const from = parse(this.entry.value, this.bond.grid).price ?? liveQuote(this.request)?.price ?? this.last();
    if (from === undefined) return;
    this.entry.value = text(from + step * 256 / this.bond.grid);
    this.anew();
  }
  read() {
    const typed = this.entry.value.trim(), isFault = this.isMissing || typed !== '', rate = parseYield(typed);
    const {price, why} = rate === null ? parseQuote(typed, this.bond) : this.readYield(rate);
    set(this.echo, !isFault ? `steps of 1/${this.bond.grid}${this.bandWords()}${this.lastWords()}`
      : why ?? `= ${/[-']/.test(typed) ? decimal(price) : thirtySeconds(price)}${this.worthOf(price)}`);
    this.echo.classList.toggle('why', isFault && price === undefined && rate === null);
  }
  // A yield is no price yet: the nearest one on the grid is shown, and Enter puts it into the field.
  readYield(rate) {
    if (!this.bond.priced) return {why: 'This desk has no data of the bond: type a price.'};
    const answer = this.worked.of({yield: rate}, this.request.quantity);
    if (!answer) return {why: `The price of ${rate} % \u2026`};
    if (answer.why) return {why: answer.why};
    const nearest = answer.price, price = `${text(nearest)} (${other(nearest)})`;
    return {nearest, why: `${rate} %: the nearest price is ${price}, which yields ${percent(answer.yield)}. Enter takes it, and sends nothing.`};
  }
  worthOf(price) {
    const answer = this.bond.priced && this.is() ? this.worked.of({price}, this.request.quantity) : null;
    return answer && !answer.why ? `, yields ${percent(answer.yield)}, the buyer pays ${money(answer.amounts.total)} ${answer.currency}` : '';
  }
  bandWords() {
    const {low, high} = this.bond;
    return low === undefined ? '' : ` from ${text(low)} to ${text(high)}`;
  }
  // The trader's own last price, and the firm's where that is another.
  lastWords() {
    const {model} = this.desk, {bond, side} = this.request, name = model.hello.trader.name;
    const own = model.lastQuote(bond, side, name), firms = model.lastQuote(bond, side);
    const other = firms && firms !== own ? `, your firm\u2019s ${text(firms.price)} (${firms.trader})` : '';
    return `${own ? `, your last ${text(own.price)}` : ''}${other}`;
  }
  last() { return this.desk.model.lastPrice(this.request.bond, this.request.side); }
  // Remembers the price that has to be confirmed, or none.
  ask(price, why = '') {
    this.sure = price === null ? null : {price, at: performance.now()};
    this.entry.dataset.asks = price === null ? '' : why;
    if (price === null) this.word.hide();
  }
  // What is asked before a price is sent: whose the request is, and whether the price is meant. Null where nothing is.
  question(price) {
    const {model, link} = this.desk, asked = questionOf(model, this.request, price, link.now());
    const whose = this.claim.isOthers() ? this.claim.whose() : '';
    if (!asked && !whose) return null;
    return {word: asked?.word ?? '', why: [whose, asked?.why].filter(Boolean).join('. ')};
  }
  send() {
    const rate = parseYield(this.entry.value);
    if (rate !== null) return this.takeYield(rate);
    const {price} = parseQuote(this.entry.value, this.bond);
    this.isMissing = price === undefined;
    if (this.isMissing) return this.say(''); // the line below the price says why
    const tooMuch = whyTooMuch(this.desk.model, this.request), question = this.question(price);
    if (tooMuch) return this.say(tooMuch);
    if (question && this.sure?.price !== price) return this.confirm(price, question);
    if (question?.word) return this.word.focus();
    if (question && performance.now() - this.sure.at < confirmAfter) return this.say(`That was too soon to be an answer. ${again(question)}`);
    this.deliver(price);
  }
  confirm(price, question) {
    this.ask(price, question.why);
    this.say(question.word ? '' : again(question));
    if (question.word) this.word.ask(question.word, question.why, this.name(question.word));
  }
  takeYield(rate) {
    const {nearest} = this.readYield(rate);
    if (nearest === undefined) return this.read();
    this.entry.value = text(nearest);
    this.anew();
  }
  deliver(price) {
    this.ask(null);
    const replaces = liveQuote(this.request)?.id ?? '';
    const command = {do: 'quote', request: this.request.id, price, seconds: Number(this.seconds.value), replaces};
    this.desk.link.act(command, refusal => {
      if (!refusal) {
        this.entry.value = '';
        this.seconds.value = '0'; // a validity is of one quote
      }
      this.say(refusal);
    });
  }
  update(request) {
    this.request = request;
    keepFocus(this.node, () => this.draw(request));
  }
  draw(request) {
    const buys = request.side === 'buy', is = this.is(), live = liveQuote(request);
    if (!is) {
      this.own = ''; // what counts now is how it ended
      this.unsent ||= this.entry.value.trim();
      this.entry.value = '';
      this.ask(null);
    }
    this.drawHead(buys ? 'OFFER' : 'BID');
    set(this.whom, `${request.investor} ${buys ? 'buys' : 'sells'}`);
    this.entry.setAttribute('aria-label', `${buys ? 'Offer' : 'Bid'} for ${amount(request.quantity)} ${this.bond.name}`);
    set(this.button, live ? 'Replace' : 'Send');
    const of = `${this.name(buys ? 'OFFER' : 'BID')} for ${request.investor}`;
    for (const button of [this.button, this.withdraw, this.decline]) label(button, of);
    this.seconds.setAttribute('aria-label', `Valid for: ${of}`);
    const isAnswerable = is && !request.declined && this.desk.model.mayAct();
    show(this.form, isAnswerable);
    show(this.foot, isAnswerable);
    show(this.withdraw, Boolean(live));
    show(this.decline, !live);
    this.claim.draw(request, of, isAnswerable);
    this.read();
    this.drawTold();
    this.tick(this.desk.link.now());
  }
  drawTold() {
    const request = this.request, is = this.is();
    const news = request.told?.refusal ? inMode(request.told.text) : request.declined ? `Declined, ${clock(request.told?.at)} UTC` : '';
    set(this.text, this.own || (is ? this.waits() || news : this.result()));
    this.text.classList.toggle('why', Boolean(this.own || (is && request.told?.refusal && !request.pending.length)));
  }
  result() {
    const request = this.request, buys = request.side === 'buy';
    const more = (this.unsent ? ` ${this.unsent} was not sent.` : '') + (request.trade ? ` Trade ${request.trade}.` : '');
    if (request.state === 'done') {
      return `DONE: ${buys ? 'sold' : 'bought'} ${amount(request.quantity)} at ${text(request.result)} ` +
        `${buys ? 'to' : 'from'} ${request.investor}, ${clock(request.ended)} UTC.${more}`;
    }
    const own = request.result !== null ? ` Your ${buys ? 'offer' : 'bid'} was ${text(request.result)}${this.staleWords()}.`
      : request.declined ? ' You declined.' : request.quotes.length ? ' No quote of yours was live.' : ' You did not quote.';
    return `${inMode(request.told?.text ?? '')}, ${clock(request.ended)} UTC.${own}${more}`;
  }
  // Of a quote whose validity was over when the request ended.
  staleWords() {
    const last = this.request.quotes.find(quote => quote.state === 'ended');
    return last && isOver(last, this.request.ended) ? `, stale since ${clock(last.valid)} UTC` : '';
  }
  tick(moment) {
    const left = super.tick(moment), live = liveQuote(this.request), isOff = this.isOff();
    const isWaiting = this.request.pending.length > 0;
    this.button.disabled = isOff || isWaiting || left <= 0;
    this.decline.disabled = isOff || isWaiting;
    this.withdraw.disabled = this.request.pending.some(one => one.act === 'withdrawal');
    looksDead(this.withdraw, !this.desk.model.isLinked);
    set(this.live, this.is() ? this.liveWords(live, moment) : '');
    this.live.classList.toggle('on', Boolean(this.is() && live && !isOver(live, moment)));
  }
  liveWords(live, moment) {
    if (!live) return this.request.declined ? '' : 'No live quote';
    const by = live.program ? `, by the program ${live.program}` : live.trader !== this.desk.model.hello.trader.name ? `, by ${live.trader}` : '';
    const price = `${text(live.price)} (${other(live.price)})${live.yield === null || live.yield === undefined ? '' : `, ${percent(live.yield)}`}${by}`;
    if (isOver(live, moment)) return `Stale ${price}: since ${clock(live.valid)} UTC nobody can hit it. It counts as exposure until you replace or withdraw it`;
    const valid = live.valid === null ? 'to the deadline' : `valid ${span(live.valid - moment)}`;
    return `Live ${price}, ${valid}${this.isOff() ? ': it may still stand, and be hit' : ''}`;
  }
}

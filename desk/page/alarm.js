// Tells a person what to know and do at once; most often nothing. Each sentence is true at the moment at which it
// stands.
import {h, set, show} from './dom.js';
import {amount, clock} from './amounts.js';
import {text} from './price.js';
import {isOver, liveQuote} from './model.js';

export class Alarm {
  // `said` is where the page says other things: while the alarm stands it has a line of its own in it, and covers nothing.
  constructor(node, said) {
    this.node = node;
    this.said = said;
    this.home = said.parentNode;
    this.words = h('p');
    this.live = h('ul', {className: 'live-quotes', 'aria-label': 'Quotes that may still be hit'});
    this.advice = h('p');
    node.append(h('div', {role: 'alert'}, this.words, this.live, this.advice));
  }
  draw(model, moment, whyClosed = '') {
    const live = mayBeHit(model, moment);
    const closed = whyClosed && `${whyClosed} Reload it to go on here.`;
    const words = [closed, model.hello ? model.session.alarm : '', live.length ? 'These quotes may still stand at the venue and be hit:' : ''];
    set(this.words, words.filter(Boolean).join(' '));
    this.list(live.map(one => lineOf(one, model)));
    set(this.advice, live.length ? advice(model) : '');
    this.place(Boolean(this.words.textContent));
  }
  list(lines) {
    if (this.lines === lines.join('\n')) return;
    this.lines = lines.join('\n');
    this.live.replaceChildren(...lines.map(line => h('li', {}, line)));
  }
  place(is) {
    show(this.node, is);
    const parent = is ? this.node : this.home;
    if (this.said.parentNode !== parent) parent.append(this.said);
  }
}

// Of a dealer's desk that the venue, or the page, has lost.
function mayBeHit(model, moment) {
  if (!model.hello || model.isOn() || !model.isDealer()) return [];
  return [...model.requests.values()].filter(one => liveQuote(one) && one.deadline > moment && !isOver(liveQuote(one), moment));
}

function lineOf(request, model) {
  const quote = liveQuote(request);
  return `${request.side === 'buy' ? 'offer' : 'bid'} ${amount(request.quantity)} ${model.bond(request.bond).name} at ` +
    `${text(quote.price)} until ${clock(quote.valid ?? request.deadline)} UTC`;
}

function advice(model) {
  const call = 'To cancel them now, call the venue\u2019s operator.';
  if (!model.mayAct()) return call;
  return model.isLinked ? `Withdraw or Cancel all is delivered as soon as the venue is back. ${call}`
    : `Withdraw and Cancel all can\u2019t be sent: the desk does not answer. ${call}`;
}

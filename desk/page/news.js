// Tells a screen reader of new requests: it does not notice by itself that a card appears.
import {h} from './dom.js';
import {amount} from './amounts.js';
import {isOpen} from './model.js';

const kept = 5; // lines

export class News {
  constructor(node) { this.node = node; }
  // Those of the model's last message that others have made.
  tell(model) {
    const news = model.fresh.filter(one => isOpen(one) && (model.isDealer() || one.trader !== model.hello.trader.name));
    this.node.append(...news.map(one => h('p', {}, `New request: ${termsOf(one, model)}`)));
    while (this.node.childElementCount > kept) this.node.firstChild.remove();
  }
}

// A request in words: what this desk would do, how much of what, and for whom.
export function termsOf(request, model) {
  const terms = `${amount(request.quantity)} ${model.bond(request.bond).name}`, buys = request.side === 'buy';
  return model.isDealer() ? `${buys ? 'OFFER' : 'BID'} ${terms} for ${request.investor}` : `${buys ? 'BUY' : 'SELL'} ${terms} of ${request.trader}`;
}

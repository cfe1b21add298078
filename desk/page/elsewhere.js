// Names open requests whose cards are not on the screen: a line below the cards leads to the one that ends next and to
// the newest.
import {h, isHalfInSight, set, show} from './dom.js';
import {span} from './amounts.js';

const fresh = 60_000; // milliseconds: as long a request is new

export class Elsewhere {
  constructor(node) {
    this.node = node;
    this.count = h('span', {className: 'quiet'});
    this.next = this.lead('Ends next');
    this.newest = this.lead('New');
    node.append(this.count, this.next.node, this.newest.node);
  }
  lead(name) {
    const lead = {card: null, name};
    lead.words = h('span');
    lead.left = h('span', {className: 'number'});
    lead.node = h('button', {type: 'button', className: 'small', onclick: () => lead.card?.focus()},
      h('span', {className: 'quiet'}, `${name}: `), lead.words, ' ', lead.left);
    return lead;
  }
  draw(cards, moment) {
    const hidden = cards.filter(card => card.is() && !isHalfInSight(card.node));
    show(this.node, hidden.length > 0);
    if (!hidden.length) return;
    const waits = hidden.filter(card => card.wants());
    const next = (waits.length ? waits : hidden).reduce((first, card) => card.request.deadline < first.request.deadline ? card : first);
    const newest = hidden.reduce((last, card) => card.request.made > last.request.made ? card : last);
    set(this.count, `${hidden.length} open ${hidden.length === 1 ? 'request is' : 'requests are'} not on the screen`);
    point(this.next, next, moment);
    point(this.newest, newest !== next && newest.request.made > moment - fresh ? newest : null, moment);
  }
}

function point(lead, card, moment) {
  lead.card = card;
  show(lead.node, Boolean(card));
  if (!card) return;
  set(lead.words, card.node.getAttribute('aria-label'));
  set(lead.left, span(card.request.deadline - moment));
}

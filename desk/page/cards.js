// The cards of the requests that are open, and for a while of those that have ended. An open card has a place that no
// other card takes: when it goes, the place stays empty for a while, and nothing moves. A card that has ended makes
// room for a new one that would not be on the screen.
import {h, arrange, isInSight, set} from './dom.js';
import {DealerCard} from './dealer_card.js';
import {InvestorCard, wantsHit} from './investor_card.js';
import {hasTraded, isOpen} from './model.js';
import {guardPresses} from './presses.js';

const kept = 45_000;  // milliseconds behind its end
const empty = 10_000; // that a place stays empty before another card takes it
const emptyBelow = 2000; // and where cards stand below each other, before the place goes

export class Cards {
  // paper(request) opens the ticket of a trade.
  constructor(section, model, link, paper) {
    this.section = section;
    this.model = model;
    this.link = link;
    this.paper = paper;
    this.cards = new Map();
    this.closed = new Set();
    this.opened = new Set(); // requests of lists whose cards a trader wanted to see
    this.visited = new Set(); // requests to which a key went, since it has gone to all
    this.places = []; // {card, node, since}: the card, or what holds its place since it has gone
    guardPresses(section, pressed => this.cardOf(pressed)?.say('The page moved under your press: look again.'));
    this.empty = h('p', {className: 'quiet empty'});
  }
  cardOf(node) { return [...this.cards.values()].find(card => card.node.contains(node)); }
  anew() {
    this.last = this.cardOf(document.activeElement)?.request.id ?? null; // which card had the keys
    this.cards.clear();
    this.closed.clear();
    this.places = [];
    this.place();
  }
  update(requests) {
    for (const request of requests) this.renew(request);
    this.place();
  }
  // A card that has ended has less to show, and keeps its height.
  renew(request) {
    const card = this.cards.get(request.id);
    if (!card) return;
    if (card.is() && !isOpen(request)) card.node.style.minHeight = `${card.node.offsetHeight}px`;
    card.update(request);
  }
  redraw() {
    for (const card of this.cards.values()) card.update(card.request);
  }
  close(id) {
    this.closed.add(id);
    this.remove(id);
    this.place();
  }
  tick(moment) {
    for (const card of this.cards.values()) card.tick(moment);
    this.place();
  }
  place() {
    if (!this.model.hello) return;
    const moment = this.link.now();
    for (const [id, request] of this.model.requests) {
      if (this.isPlaced(request) && (isOpen(request) || (!this.closed.has(id) && this.isKept(request, moment)))) {
        if (!this.cards.has(id)) this.add(id, request);
      } else if (this.cards.has(id)) {
        this.remove(id);
      }
    }
    while (this.places.length && this.isFree(this.places.at(-1))) this.places.pop();
    this.closeUp();
    set(this.empty, this.model.isDealer() ? 'No open request. One that comes is shown here.'
      : 'No open request. F2 goes to the ticket.');
    arrange(this.section, [...(this.cards.size ? [] : [this.empty]), ...this.places.map(place => place.node)]);
  }
  // A line of a list is a part of the list's card, and has one of its own where a trader goes to it.
  isPlaced(request) { return !request.list || this.opened.has(request.id); }
  // Open lines of lists that have no card.
  lines() { return [...this.model.requests.values()].filter(one => isOpen(one) && !this.isPlaced(one)); }
  // A trade stays until it is closed.
  isKept(request, moment) { return request.ended > moment - kept || (hasTraded(request) && this.cards.has(request.id)); }
  isFree(place) { return !place.card && performance.now() - place.since >= empty; }
  // An empty place among cards that stand below each other is a blank on the screen; in columns it is one where no open
  // card stands behind it.
  closeUp() {
    const isEmpty = place => !place.card && performance.now() - place.since >= emptyBelow;
    if (!this.places.some(isEmpty)) return;
    const isBelow = !getComputedStyle(this.section).gridTemplateColumns.includes(' ');
    const isHeld = place => place.card?.is() || place.node.contains(document.activeElement) || place.node.matches(':hover');
    const last = isBelow ? -1 : this.places.findLastIndex(isHeld); // what stands behind it moves nobody's press
    this.places = this.places.filter((place, at) => at < last || !isEmpty(place));
  }
  remove(id) {
    const card = this.cards.get(id), place = this.places.find(one => one.card === card);
    this.cards.delete(id);
    place.node = h('div', {className: 'place'});
    place.node.style.minHeight = `${card.node.offsetHeight}px`;
    place.card = null;
    place.since = performance.now();
  }
  add(id, request) {
    const Card = this.model.isDealer() ? DealerCard : InvestorCard;
    const card = new Card(request, {model: this.model, link: this.link, close: one => this.close(one), paper: this.paper});
    this.cards.set(id, card);
    card.update(request);
    const place = this.places.find(one => this.isFree(one) && isInSight(one.node)) ?? this.madeRoom(card);
    if (place) Object.assign(place, {card, node: card.node});
    else this.places.push({card, node: card.node, since: 0});
  }
  // Of the places whose cards have ended, or have gone, the longest so that is on the screen, or else any; none where
  // there is room for the card behind all others. What stood there goes to the end.
  madeRoom(card) {
    const ends = place => place.card ? place.card.request.ended : Date.now();
    const places = this.places.filter(place => !place.card?.is() && !place.node.contains(document.activeElement))
      .sort((a, b) => ends(a) - ends(b));
    if (!places.length || this.hasRoomBehind(card)) return undefined;
    const place = places.find(one => isInSight(one.node)) ?? places[0];
    card.node.style.minHeight = `${place.node.offsetHeight}px`; // nothing below it moves up
    if (place.card) this.places.push({card: place.card, node: place.node, since: 0});
    return place;
  }
  hasRoomBehind(card) {
    this.section.append(card.node);
    return isInSight(card.node);
  }
  // The requests at which a person should look.
  waiting() { return this.all().concat(this.lines().map(lineCard)).filter(card => card.wants()).map(card => card.request); }
  // Of one that has ended the card itself has the keys.
  go(id) {
    if (this.model.requests.get(id)?.list && !this.opened.has(id)) {
      this.opened.add(id);
      this.place();
    }
    const card = this.cards.get(id);
    card?.focus();
    if (card && !card.node.contains(document.activeElement)) card.node.focus();
  }
  // Where the keys were before the desk came back.
  comeBack() {
    if (this.last && document.activeElement === document.body) this.go(this.last);
    this.last = null;
  }
  // So that a key that is pressed next sends none of the prices that were typed.
  clearEntries() {
    for (const card of this.cards.values()) card.clear?.();
  }
  // Of those that want something the one that ends first, of which the focus has not been since it has been in all;
  // where none does, so of those that are open.
  next() {
    const all = this.all().concat(this.lines().map(lineCard)).sort((a, b) => a.request.deadline - b.request.deadline);
    const some = [card => card.wants(), card => card.is(), () => true].map(fits => all.filter(fits)).find(cards => cards.length) ?? [];
    const isElsewhere = card => !card.node?.contains(document.activeElement);
    let left = some.filter(card => isElsewhere(card) && !this.visited.has(card.request.id));
    if (!left.length) {
      this.visited.clear();
      left = some.filter(isElsewhere);
    }
    const card = left[0] ?? some[0];
    if (card) this.visited.add(card.request.id);
    return card && {focus: () => this.go(card.request.id)};
  }
  all() { return [...this.cards.values()]; }
}

// In the place of a card that a line of a list does not have.
const lineCard = request => ({request, node: null, is: () => true, wants: () => wantsHit(request)});

// The page as a whole: it takes what comes from the desk to its parts, and keys to what they do.
import {set, show} from './dom.js';
import {toggleMode} from './price.js';
import {Link} from './link.js';
import {Login} from './login.js';
import {Model, liveQuote} from './model.js';
import {Ticket} from './ticket.js';
import {Cards} from './cards.js';
import {Blotter} from './blotter.js';
import {Top} from './top.js';
import {Alarm} from './alarm.js';
import {Elsewhere} from './elsewhere.js';
import {News} from './news.js';
import {ListCards} from './list_cards.js';
import {FirmLimits} from './firm_limits.js';
import {Programs} from './programs.js';
import {OpenTable} from './open_table.js';
import {Help} from './help.js';
import {TradeTicket} from './trade_ticket.js';
import {Alerts, Choices} from './alerts.js';
import {AlertSwitches} from './alert_switches.js';
import {Sounds} from './sounds.js';

const tickTime = 200;
const leaveAfter = 600; // milliseconds between the two presses that leave live quotes behind
const leaveFor = 8000;  // as long the question stands
const scrolls = {PageDown: 0.9, PageUp: -0.9, End: 1e4, Home: -1e4}; // pages, where nothing has the keys
const mostCounted = 9;  // by the icon, each with a picture of its own
const keys = {
  dealer: 'F2 the request without a quote that ends next \u00b7 Enter send \u00b7 \u2191\u2193 one step of the grid \u00b7 Escape clear \u00b7 F4 decimals or 32nds \u00b7 F8 table \u00b7 F9 cancel all \u00b7 ? help',
  investor: 'F2 ticket \u00b7 B or S side \u00b7 F3 best quote of the next request \u00b7 \u2191\u2193 from quote to quote \u00b7 Enter chooses, Enter again hits \u00b7 Escape takes the first back \u00b7 F4 decimals or 32nds \u00b7 F8 table \u00b7 ? help'};

const narrow = matchMedia('(max-width: 760px)');
const of = id => document.getElementById(id);

class Page {
  constructor() {
    this.model = new Model();
    this.link = new Link(message => this.hear(message));
    this.login = new Login(this.link);
    this.paper = new TradeTicket(this.model);
    this.cards = new Cards(of('cards'), this.model, this.link, request => this.paper.open(request));
    this.makeAlerts();
    this.lists = new ListCards(of('lists'), this.model, this.link,
      {go: id => this.cards.go(id), tell: (what, isBad) => this.top.say(what, isBad)});
    this.programs = new Programs(of('programs'), this.model, this.link, what => this.top.say(what, true));
    this.table = new OpenTable(of('table'), this.model, () => this.link.now(), id => this.cards.go(id));
    this.help = new Help();
    this.limits = new FirmLimits(this.model, this.link);
    document.body.append(this.help.node, this.paper.node, this.limits.node);
    this.top = new Top({toggle: () => this.toggle(), cancelAll: () => this.cancelAll(), logOut: () => this.logOut()}, [this.table.button, this.switches.button, this.help.button]);
    this.isKnown = true; // whether somebody is logged in
    this.isNew = true;   // to whoever looks at it: the keys go where the work begins
    this.leavesAt = -leaveFor;
    this.ticket = null;
    this.blotter = null;
    this.madeFor = ''; // the firm, the market and the trader of this page
    of('top').append(...this.top.nodes);
    this.top.cancel.after(this.limits.button);
    of('foot').prepend(this.top.said);
    this.alarm = new Alarm(of('alarm'), this.top.said);
    this.elsewhere = new Elsewhere(of('elsewhere'));
    this.news = new News(of('news'));
    document.addEventListener('keydown', event => this.key(event));
    for (const what of ['keydown', 'pointerdown', 'wheel']) document.addEventListener(what, () => this.link.alive(), {passive: true});
    setInterval(() => this.tick(), tickTime);
    this.tick();
    this.link.connect();
  }

  makeAlerts() {
    const choices = new Choices(), sounds = new Sounds(() => choices.sound.size > 0, () => this.switches.draw());
    this.switches = new AlertSwitches(this.model, choices, sounds);
    this.alerts = new Alerts(this.model, choices, sounds, id => this.cards.go(id));
    document.body.append(this.switches.node);
  }

  hear(message) {
    this.isKnown = message.t !== 'login';
    const changed = this.model.take(message);
    if (message.t === 'login') this.leave();
    else if (changed === null) this.begin();
    else this.change(changed, message.last);
    this.drawPart(message.t);
    this.draw();
    if (message.last) this.whole();
  }
  // All of the day is here.
  whole() {
    this.ticket?.preselect();
    this.cards.comeBack();
    this.table.comeBack();
    if (this.isNew) this.goToWork();
  }
  // What the parts of this page are made for: they have its bonds and dealers.
  whatFor() {
    const {firm, market, trader} = this.model.hello;
    return JSON.stringify([firm, market, trader]);
  }
  // Of what the desk tells apart from requests.
  drawPart(kind) {
    if (kind === 'trader') this.madeFor = this.whatFor();
    if (kind === 'programs') this.programs.draw();
    if (kind === 'lists') this.lists.draw(this.link.now());
    if (kind === 'limits' || kind === 'references') this.limits.draw();
  }
  goToWork() {
    this.isNew = false;
    if (document.activeElement !== document.body || narrow.matches) return;
    if (this.ticket) this.ticket.focus();
    else this.cards.next()?.focus();
  }
  // Nothing of the day stays in the page of one who has left.
  leave() {
    if (this.model.hello) return location.reload();
    show(of('body'), false);
    document.body.insertBefore(this.login.node, of('body'));
    this.login.say(this.link.takeReason());
    this.login.focus();
  }
  begin() {
    const {model} = this, madeFor = this.whatFor();
    if (this.madeFor && this.madeFor !== madeFor) return location.reload(); // its parts have bonds and dealers of before
    this.madeFor = madeFor;
    this.link.locksAfter = model.hello.locksAfter;
    this.login.node.remove();
    show(of('body'), true);
    document.body.classList.add(model.hello.market.role);
    const asks = !model.isDealer() && model.mayAct();
    document.body.classList.toggle('asks', asks);
    if (asks && !this.ticket) {
      this.ticket = new Ticket(model, this.link);
      of('ticket').append(this.ticket.node);
      show(of('ticket'), true);
    }
    this.ticket?.begin();
    this.blotter ??= this.makeBlotter();
    this.blotter.begin();
    set(of('keys'), keys[model.hello.market.role]);
    set(of('banner'), model.hello.banner);
    show(of('banner'), Boolean(model.hello.banner));
    this.cards.anew();
    this.alerts.begin();
    this.table.begin();
    this.programs.draw();
    this.limits.begin();
    this.login.knows(model.hello.firm);
    this.help.begin(model.hello.market.role);
  }
  makeBlotter() {
    const blotter = new Blotter(this.model, this.link, {tell: what => this.top.say(what), paper: request => this.paper.open(request),
      repeat: this.ticket ? request => this.ticket.fill(request) : null});
    of('blotter').append(blotter.node);
    return blotter;
  }
  change(requests, isLast) {
    this.alerts.take(requests, isLast);
    if (requests.length) {
      this.cards.update(requests);
      if (!this.isNew) this.news.tell(this.model);
      this.drawBlotterSoon();
    }
    const {notice} = this.model.session ?? {};
    const {shown} = this; // an answer may come within the millisecond of what it answers
    if (notice && (notice.at !== shown?.at || notice.text !== shown.text)) {
      if (shown || notice.at > this.link.now() - 10_000) this.top.say(notice.text, notice.refusal);
      this.shown = notice;
    }
  }
  // Once for all that comes in one go.
  drawBlotterSoon() {
    this.blotterTimer ??= setTimeout(() => {
      this.blotterTimer = null;
      this.blotter.draw();
    }, 50);
  }
  draw() {
    const {model} = this;
    document.body.classList.toggle('off', this.isKnown && !model.isOn());
    this.top.draw(model, this.isKnown, Boolean(this.link.whyClosed));
    this.alarm.draw(model, this.link.now(), this.link.whyClosed);
    const waiting = this.cards.waiting();
    if (model.hello && this.isKnown) this.alerts.look(waiting, this.link.now());
    this.count(waiting.length);
  }
  // In the title and in the icon: how many requests wait for somebody.
  count(wants) {
    const {hello} = this.model, title = hello ? `${wants ? `(${wants}) ` : ''}${hello.firm} desk` : 'Desk';
    if (document.title !== title) document.title = title;
    const icon = wants ? `icon-${wants > mostCounted ? 'more' : wants}.svg` : 'icon.svg';
    if (of('icon').getAttribute('href') !== icon) of('icon').setAttribute('href', icon);
  }
  tick() {
    const moment = this.link.now();
    this.top.tick(moment);
    this.cards.tick(moment);
    this.table.draw();
    if (this.model.hello) this.lists.draw(moment);
    if (this.model.hello) this.elsewhere.draw(this.cards.all(), moment);
    this.ticket?.tick();
    if (this.model.hello) this.draw(); // a deadline ends without a message
  }

  toggle() {
    toggleMode();
    this.cards.redraw();
    this.table.draw();
    this.blotter?.draw();
    this.draw();
  }
  cancelAll() {
    if (!this.model.hello || !this.model.isDealer()) return;
    this.cards.clearEntries();
    this.link.act({do: 'cancel all'}, why => why && this.top.say(why, true));
  }
  // Live quotes outlive a login: whoever leaves is asked first.
  logOut() {
    const {model} = this, moment = performance.now();
    const live = model.hello && model.isDealer() ? [...model.requests.values()].filter(liveQuote).length : 0;
    if (live && moment - this.leavesAt > leaveFor) {
      this.leavesAt = moment;
      return this.top.say(`${live} ${live === 1 ? 'quote stays' : 'quotes stay'} live and can be hit. Cancel all, or press Log out again to leave.`, true);
    }
    if (live && moment - this.leavesAt < leaveAfter) return;
    this.link.logOut();
  }
  nextCard() {
    const card = this.cards.next();
    if (card) card.focus();
    else if (this.model.hello) this.top.say('No request is open.');
  }
  key(event) {
    const pages = document.activeElement === document.body ? scrolls[event.key] : undefined;
    if (pages) {
      of('body').scrollBy(0, pages * of('body').clientHeight);
    } else if (event.key === 'F2' && this.ticket) {
      this.ticket.focus();
    } else if (event.key === 'F2' || (event.key === 'F3' && this.ticket)) {
      this.nextCard();
    } else if (event.key === 'F4') {
      this.toggle();
    } else if (this.model.hello && this.help.isAsked(event)) {
      this.help.open();
    } else if (event.key === 'F8' && this.model.hello) {
      this.table.key();
    } else if (event.key === 'F9') {
      if (!event.repeat) this.cancelAll();
    } else {
      return;
    }
    event.preventDefault();
  }
}

new Page();

// Chooses which day the blotter shows: today, an earlier one of the desk's journals, or what is found in all of them.
// Earlier days are read-only.
import {h, set, show} from './dom.js';

// 2026-11-28, of the name of a journal.
export const dayWords = day => day.replace(/^(\d{4})(\d\d)(\d\d)$/, '$1-$2-$3');

const pause = 400; // milliseconds behind a key, before the journals are searched

export class Days {
  // changed() is called when other requests are shown.
  constructor(model, link, changed) {
    this.model = model;
    this.link = link;
    this.changed = changed;
    this.day = 'today';
    this.found = []; // requests of earlier days, each with its `day`
    this.asked = 0;  // of the answers the last one alone counts
    this.title = h('h2', {}, 'Today');
    this.said = h('span', {className: 'quiet', role: 'status'});
    this.choice = h('select', {id: 'day', 'aria-label': 'Which day', onchange: () => this.choose(this.choice.value)});
  }
  begin() {
    const days = this.model.hello.days ?? [];
    const options = [['today', 'today'], ...days.map(day => [day, dayWords(day)]), ['all', 'earlier days: find']];
    this.choice.replaceChildren(...options.map(([value, name]) => h('option', {value}, name)));
    show(this.choice, days.length > 0);
    if (!options.some(([value]) => value === this.day)) this.day = 'today';
    this.choice.value = this.day;
  }
  isToday() { return this.day === 'today'; }
  areMany() { return this.day === 'all'; }
  // A list of its own: whoever shows it turns and sorts it.
  requests() { return this.isToday() ? [...this.model.requests.values()] : [...this.found]; }
  choose(day) {
    this.day = day;
    set(this.title, day === 'today' ? 'Today' : day === 'all' ? 'Earlier days, read-only' : `${dayWords(day)}, read-only`);
    this.look('');
  }
  // What is typed into the filter is looked for in all earlier days, where these are chosen.
  typed(text) {
    clearTimeout(this.timer);
    if (this.day === 'all') this.timer = setTimeout(() => this.look(text.trim()), pause);
  }
  look(text) {
    const asked = ++this.asked;
    this.found = [];
    set(this.said, '');
    if (this.day === 'all' && !text) set(this.said, 'Type a bond, a firm, a quantity, a price or a trade into the filter.');
    else if (!this.isToday()) this.ask(asked, text);
    this.changed();
  }
  ask(asked, text) {
    set(this.said, 'Reading the journals \u2026');
    const question = this.day === 'all' ? {do: 'find', find: text} : {do: 'day', date: this.day, find: ''};
    this.link.ask(question, answer => {
      if (asked !== this.asked) return;
      this.found = [...this.found, ...(answer.requests ?? []).map(one => ({...one, day: answer.date}))];
      if (answer.why) set(this.said, answer.why);
      else if (answer.last !== false) set(this.said, '');
      this.changed();
    });
  }
}

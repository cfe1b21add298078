// The field for the dealers that are asked: a list, and groups that the trader has saved.
import {h, set, show} from './dom.js';
import {label, twoPresses} from './presses.js';

export const most = 8; // of one request

export class DealerField {
  constructor(dealers, groups, link, changed) {
    this.link = link;
    this.groups = new Map(Object.entries(groups));
    this.changed = changed;
    this.boxes = dealers.map(name => h('input', {type: 'checkbox', value: name, onchange: () => { this.touch(); changed(); }}));
    this.chips = h('span', {className: 'chips'});
    this.name = h('input', {className: 'group-name', autocomplete: 'off', maxLength: 24, 'aria-label': 'Name of the group',
      placeholder: 'save as group', onkeydown: event => this.key(event)});
    this.why = h('p', {className: 'why', role: 'status'});
    this.source = h('p', {className: 'quiet source'}); // where those that are chosen come from
    this.isTouched = false;
    this.node = h('fieldset', {className: 'dealers'}, h('legend', {}, 'Dealers'), this.chips, this.source,
      h('div', {className: 'picks'}, ...this.boxes.map(box => h('label', {className: 'pick'}, box, box.value))), this.name, this.why);
    this.draw();
  }
  chosen() { return this.boxes.filter(box => box.checked).map(box => box.value); }
  touch() {
    this.isTouched = true;
    set(this.source, '');
  }
  // Those of the last request, or else of a group, before the trader has chosen any.
  preselect(last) {
    if (this.isTouched || this.chosen().length) return;
    const [group] = this.groups, names = last?.length ? last : group?.[1] ?? [];
    this.choose(names);
    this.isTouched = false;
    set(this.source, !this.chosen().length ? '' : last?.length ? 'As in your last request' : `The group ${group[0]}`);
  }
  choose(names) {
    this.touch();
    for (const box of this.boxes) box.checked = names.includes(box.value);
    this.changed();
  }
  draw() {
    const chip = (name, dealers, title) => h('button', {type: 'button', className: 'small', title, onclick: () => this.choose(dealers)}, name);
    const all = this.boxes.map(box => box.value);
    this.chips.replaceChildren(
      ...(all.length <= most ? [chip('all', all, 'Every dealer')] : []), chip('none', [], 'No dealer'),
      ...[...this.groups].map(([name, dealers]) => h('span', {className: 'group'}, chip(name, dealers, dealers.join(', ')),
        this.remover(name))));
  }
  // It asks first, by its form and its name.
  remover(name) {
    const button = twoPresses('\u00d7', 'small', () => this.save(name, []), 'Remove the group');
    button.title = 'Remove, by two presses';
    label(button, name);
    return button;
  }
  key(event) {
    if (event.key !== 'Enter') return;
    event.preventDefault(); // no request is sent by it
    const name = this.name.value.trim();
    if (!name) return;
    if (!this.chosen().length) return this.say('Choose the dealers of the group first.');
    this.save(name, this.chosen());
  }
  save(name, dealers) {
    this.link.act({do: 'save group', name, dealers}, why => {
      this.say(why);
      if (why) return;
      if (dealers.length) this.groups.set(name, dealers);
      else this.groups.delete(name);
      this.name.value = '';
      this.draw();
    });
  }
  say(why) {
    set(this.why, why);
    show(this.why, Boolean(why));
  }
}

// The switches by which a trader chooses what is announced, and hears each sound.
import {h, set, show} from './dom.js';
import {kinds} from './alerts.js';

const ways = {sound: 'Sound', notification: 'Notification'};
const blocked = 'The browser blocks notifications of this page: allow them in its settings of this site.';

export class AlertSwitches {
  constructor(model, choices, sounds) {
    this.model = model;
    this.choices = choices;
    this.sounds = sounds;
    this.rows = new Map(Object.keys(kinds).map(kind => [kind, this.row(kind)]));
    this.button = h('button', {type: 'button', id: 'alerts-button', 'aria-haspopup': 'dialog', onclick: () => this.open()});
    this.why = h('p', {className: 'why', role: 'status'});
    this.close = h('button', {className: 'strong'}, 'Close');
    const head = name => h('th', {scope: 'col'}, name);
    this.node = h('dialog', {id: 'alerts', 'aria-labelledby': 'alerts-title'},
      h('h2', {id: 'alerts-title'}, 'Alerts'),
      h('p', {className: 'quiet'}, 'What this page announces while you look elsewhere. This browser keeps your choice.'),
      h('table', {}, h('thead', {}, h('tr', {}, head('What'), head('Sound'), head('Notification'), head('Listen'))),
        h('tbody', {}, ...this.rows.values())), this.why,
      h('form', {method: 'dialog', className: 'foot'}, this.close));
    this.draw();
  }
  row(kind) {
    return h('tr', {}, h('th', {scope: 'row'}, kinds[kind]), ...Object.keys(ways).map(way => h('td', {}, this.box(way, kind))),
      h('td', {}, h('button', {type: 'button', className: 'small', 'aria-label': `Hear: ${kinds[kind]}`, onclick: () => this.sounds.hear(kind)}, 'Hear')));
  }
  box(way, kind) {
    const box = h('input', {type: 'checkbox', checked: this.choices[way].has(kind), 'aria-label': `${ways[way]}: ${kinds[kind]}`,
      id: `alert-${way}-${kind}`, onchange: () => this.choose(box, way, kind)});
    return h('label', {className: 'pick'}, box);
  }
  // The browser asks the trader at the first notification that is switched on.
  async choose(box, way, kind) {
    if (way === 'notification' && box.checked && !await isAllowed()) {
      box.checked = false;
      set(this.why, blocked);
      return;
    }
    this.choices.set(way, kind, box.checked);
    if (way === 'sound' && box.checked) await this.sounds.wake();
    this.draw();
  }
  open() {
    show(this.rows.get('quote'), !this.model.isDealer()); // a dealer is shown nobody's
    set(this.why, this.choices.notification.size && !isGranted() ? blocked : '');
    this.node.showModal();
    this.close.focus();
  }
  // Says so where a sound is switched on that the browser would not play.
  draw() {
    const {sound, notification} = this.choices, isSilent = sound.size > 0 && !this.sounds.canPlay();
    set(this.button, isSilent ? 'Alerts: silent' : sound.size + notification.size ? 'Alerts: on' : 'Alerts: off');
    this.button.title = isSilent ? 'The browser plays no sound before your first press on this page.' : 'Sounds and notifications of this page';
    this.button.classList.toggle('why', isSilent);
  }
}

const isGranted = () => 'Notification' in window && Notification.permission === 'granted';

async function isAllowed() {
  return isGranted() || ('Notification' in window && await Notification.requestPermission() === 'granted');
}

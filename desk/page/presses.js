// Guards presses that bind the firm. A press that comes too soon after its button came to this place, or
// began to mean something else, was meant for what stood there before: it does nothing.
import {h, placeOf} from './dom.js';

export const settled = 700;      // milliseconds that a button has to have stood where it is
const look = 100;                // between two looks at where buttons stand
const moved = 3;                 // pixels
const armedFor = 4000;           // how long a first press is remembered
export const doubleClick = 300;  // is one press

const places = new WeakMap();

function sees(button) {
  const now = {...placeOf(button), since: performance.now()}, before = places.get(button);
  const stands = before?.is && now.is && Math.abs(now.x - before.x) <= moved && Math.abs(now.y - before.y) <= moved;
  if (!stands) places.set(button, now);
  return stands ? now.since - before.since : 0;
}

// Guards every button and field with data-binds under this node; tell(node) is called where a press did nothing.
export function guardPresses(root, tell) {
  setInterval(() => { for (const node of root.querySelectorAll('[data-binds]')) sees(node); }, look);
  root.addEventListener('mousedown', event => { // a price would be typed for another request
    const field = event.target.closest('input[data-binds]');
    if (!field || field === document.activeElement || sees(field) >= settled) return;
    event.preventDefault();
    tell(field);
  }, true);
  root.addEventListener('click', event => {
    const button = event.target.closest('button[data-binds]');
    if (!button || event.detail === 0) return; // a key presses what has the focus, wherever it stands
    if (sees(button) >= settled) return;
    event.preventDefault();
    event.stopImmediatePropagation();
    tell(button);
  }, true);
  root.addEventListener('keydown', event => { // a key that is held down is one press
    if (event.repeat && (event.key === 'Enter' || event.key === ' ') && event.target.closest('button')) event.preventDefault();
  }, true);
}

// What a button that asks has behind its word. It takes its room before it asks, too: a button that grew would move,
// and the second press would be taken for one on something else.
export const query = () => h('span', {className: 'query'}, '?');

// Names a button for a screen reader: what it does, and to what, so that the buttons of two cards are told apart.
export function label(button, of) {
  const name = `${button.dataset.does ?? button.textContent} ${of}`;
  button.dataset.of = of;
  button.setAttribute('aria-label', button.classList.contains('armed') ? `Confirm: ${name}` : name);
}

// A button that acts on its second press; the first asks. `does` is what a screen reader has for its name.
export function twoPresses(name, kind, act, does = name) {
  let armed = null;
  const arms = is => {
    button.classList.toggle('armed', is);
    label(button, button.dataset.of ?? '');
  };
  const disarm = () => {
    clearTimeout(armed?.timer);
    armed = null;
    arms(false);
  };
  const button = h('button', {type: 'button', className: kind, 'data-binds': kind, onclick: () => {
    const moment = performance.now();
    if (!armed) {
      armed = {at: moment, timer: setTimeout(disarm, armedFor)};
      return arms(true);
    }
    if (moment - armed.at < doubleClick) return;
    disarm();
    act();
  }, onkeydown: event => { if (event.key === 'Escape') disarm(); }, onblur: () => armed && disarm(), 'data-does': does}, name, query());
  return button;
}

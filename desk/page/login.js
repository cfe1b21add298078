// The form by which a trader logs in.
import {h, set} from './dom.js';

const key = 'firm'; // whose desk it is, as this browser has been told by it: the desk tells nobody else

export class Login {
  constructor(link) {
    const known = localStorage.getItem(key);
    this.login = h('input', {id: 'login', autocomplete: 'username', required: true});
    this.password = h('input', {id: 'password', type: 'password', autocomplete: 'current-password', required: true});
    this.button = h('button', {type: 'submit', className: 'strong'}, 'Log in');
    this.why = h('p', {className: 'why', role: 'alert'});
    this.node = h('form', {className: 'login', onsubmit: event => this.send(event, link)},
      h('h1', {}, known ? `Desk of ${known}` : 'Mireseason desk'),
      h('label', {htmlFor: 'login'}, 'Login'), this.login,
      h('label', {htmlFor: 'password'}, 'Password'), this.password, this.button, this.why);
  }
  knows(firm) { localStorage.setItem(key, firm); }
  focus() { this.login.focus(); }
  // Why it is asked for.
  say(why) { if (why) set(this.why, why); }
  async send(event, link) {
    event.preventDefault();
    this.button.disabled = true;
    set(this.why, '');
    set(this.button, 'Logging in \u2026');
    const why = await link.logIn(this.login.value, this.password.value);
    this.button.disabled = false;
    set(this.button, 'Log in');
    this.password.value = '';
    set(this.why, why);
    if (why) this.password.focus();
  }
}

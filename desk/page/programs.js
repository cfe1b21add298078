// The firm's own programs that act through the desk: what each does, and how a trader stops and releases it.
import {h, arrange, set, show} from './dom.js';
import {clock} from './amounts.js';
import {label, twoPresses} from './presses.js';

export class Programs {
  constructor(node, model, link, tell) {
    this.node = node;
    this.model = model;
    this.link = link;
    this.tell = tell; // says a line for a while
    this.lines = new Map();
  }
  draw() {
    const {programs} = this.model;
    arrange(this.node, programs.map(one => this.line(one)));
    show(this.node, programs.length > 0);
  }
  line(program) {
    const line = this.lines.get(program.name) ?? this.add(program.name), {isOn, isStopped, by, since} = program;
    set(line.words, isStopped ? `stopped by ${by || 'the desk'}, ${clock(since)} UTC: it may do nothing until a trader releases it`
      : isOn ? `acts with the rights of ${program.trader}. F9 stops it` : 'not connected');
    line.words.classList.toggle('why', isStopped);
    show(line.stop, !isStopped && this.model.mayAct());
    show(line.release, isStopped && this.model.mayAct());
    return line.node;
  }
  // A stop is one press, a release two.
  add(name) {
    const act = what => this.link.act({do: what, name}, why => why && this.tell(why));
    const words = h('span', {role: 'status'}), stop = h('button', {type: 'button', className: 'small panic', onclick: () => act('stop program')}, 'Stop');
    const release = twoPresses('Release', 'small release', () => act('release program'));
    for (const button of [stop, release]) label(button, `the program ${name}`);
    const line = {words, stop, release, node: h('p', {className: 'program'}, h('b', {}, `Program ${name}`), words, stop, release)};
    this.lines.set(name, line);
    return line;
  }
}

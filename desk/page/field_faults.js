// Tells what is wrong with a form's fields: each fault below its field, once the trader leaves it.
import {h, set, show} from './dom.js';

export class FieldFaults {
  // fields are {NAME: {mark, focus}}: what is marked, and where the keys go.
  constructor(fields) {
    this.fields = new Map(Object.entries(fields));
    this.told = new Set(); // the names of those that were left, or were asked about
    for (const [name, field] of this.fields) {
      field.words = h('p', {id: `${name}-fault`, className: 'why fault', role: 'alert', hidden: true});
    }
  }
  // The line that stands below a field.
  line(name) { return this.fields.get(name).words; }
  nameOf(node) { return [...this.fields].find(([, field]) => field.mark.contains(node))?.[0]; }
  left(node) { this.told.add(this.nameOf(node)); }
  // A box is chosen by one press: there is nothing to leave.
  typed(node) {
    if (node.type === 'checkbox') this.left(node);
    else this.told.delete(this.nameOf(node));
  }
  // Whether the fault stands below its field.
  tells(fault) { return this.told.has(fault.at) && (fault.isWrong || this.asked === fault.at); }
  // What is missing is told of the field that was asked about alone.
  show(faults) {
    for (const [name, field] of this.fields) {
      const fault = faults.find(one => one.at === name && this.tells(one));
      set(field.words, fault?.why ?? '');
      show(field.words, Boolean(fault));
      if (fault) mark(field);
      else for (const key of ['aria-invalid', 'aria-describedby']) field.mark.removeAttribute(key);
    }
  }
  // Goes to the field at fault.
  blame(fault) {
    this.asked = fault.at;
    this.told.add(fault.at);
    this.show([fault]);
    this.fields.get(fault.at).focus.focus();
  }
  forget() {
    this.asked = null;
    this.told.clear();
  }
}

function mark({mark, words}) {
  if (mark.getAttribute('aria-invalid') === 'true') return;
  mark.setAttribute('aria-invalid', 'true');
  mark.setAttribute('aria-describedby', words.id);
}

// Plays short tones, one for each kind of news, by Web Audio: it fetches no file, and the page's policy stays as it is.

// Each tone is {hertz, at, seconds}. What binds or is lost is longer, and falls where it is bad.
const tones = {
  request: [{hertz: 660, at: 0, seconds: 0.12}, {hertz: 880, at: 0.13, seconds: 0.18}],
  quote: [{hertz: 1320, at: 0, seconds: 0.09}],
  hit: [{hertz: 660, at: 0, seconds: 0.12}, {hertz: 825, at: 0.13, seconds: 0.12}, {hertz: 990, at: 0.26, seconds: 0.3}],
  deadline: [{hertz: 990, at: 0, seconds: 0.08}, {hertz: 990, at: 0.14, seconds: 0.08}, {hertz: 990, at: 0.28, seconds: 0.08}],
  lost: [{hertz: 440, at: 0, seconds: 0.3}, {hertz: 330, at: 0.32, seconds: 0.5}]};

const loudness = 0.25; // of 1: a tone has to be heard, and not to hurt
const rise = 0.01;     // seconds: without it a tone begins and ends with a click

export class Sounds {
  // isWanted() says whether any is switched on; changed() is called when the browser begins or ceases to let the page sound.
  constructor(isWanted, changed) {
    this.changed = changed;
    this.context = null;
    for (const press of ['pointerdown', 'keydown']) document.addEventListener(press, () => isWanted() && this.wake(), true);
  }
  // A browser plays nothing before somebody has pressed something on the page; a key such as Escape is no such press.
  async wake() {
    if (this.canPlay() || !navigator.userActivation.hasBeenActive) return;
    if (!this.context) {
      this.context = new AudioContext();
      this.context.onstatechange = this.changed;
    }
    await this.context.resume();
  }
  canPlay() { return this.context?.state === 'running'; }
  async hear(kind) {
    await this.wake();
    this.play(kind);
  }
  play(kind) {
    if (!this.canPlay()) return;
    for (const tone of tones[kind]) this.sound(tone);
  }
  sound({hertz, at, seconds}) {
    const {context} = this, begin = context.currentTime + at, end = begin + seconds;
    const source = new OscillatorNode(context, {frequency: hertz}), volume = new GainNode(context, {gain: 0});
    volume.gain.setValueAtTime(0, begin);
    volume.gain.linearRampToValueAtTime(loudness, begin + rise);
    volume.gain.setValueAtTime(loudness, end - rise);
    volume.gain.linearRampToValueAtTime(0, end);
    source.connect(volume).connect(context.destination);
    source.start(begin);
    source.stop(end);
  }
}

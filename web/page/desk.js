// The page's end of the console: the keys of a person go there, and lines that panel, drives and files type. What a line does and what is
// said of it is the console's.
//   const desk = new Desk({ link }); desk.feed([114, 13]); await desk.command('examine 1000');   { answer, reason }
'use strict';

class Desk {
  // onact(isPersons): something is done, by keys of a person, or by lines, which the page has too when it opens.
  constructor({ link, onerror, onact }) {
    Object.assign(this, { link, onerror, onact, waiting: [], isHeld: true, isRunning: false, isTalk: false });
  }

  // Keys, in the order in which they are pressed. They wait while it is held, as while a session is made ready.
  feed(codes) {
    this.onact(true);
    if (this.isHeld) this.waiting = this.waiting.concat(codes);
    else this.ask('keys', { bytes: codes });
  }

  // What the terminal answers to the machine.
  reply(codes) { if (this.isRunning) this.ask('keys', { bytes: codes }); }

  // Those that wait for the session before are dropped.
  hold(isHeld) {
    const keys = this.waiting;
    if (isHeld !== this.isHeld) this.waiting = [];
    this.isHeld = isHeld;
    if (!isHeld && keys.length > 0) this.feed(keys);
  }

  async ask(call, args) { return this.link.ask(call, args).catch((error) => this.onerror(error)); }

  // Types lines, up to one that is refused: what the last was answered, and why it was refused. A talk goes on behind them; a run that has a
  // count ends before them. Silently they aren't shown.
  async commands(lines, isSilent = false) {
    this.onact();
    const said = await this.ask('lines', { lines, isSilent }) ?? [];
    return answerIn(said.at(-1) ?? '');
  }

  async command(line, isSilent) { return this.commands([line], isSilent); }

  // Types a line that isn't waited for, as one that begins a run.
  type(line) {
    this.onact();
    return this.ask('type', { line });
  }

  talk() { return this.type('talk'); }
  halt() { return this.ask('halt'); }
}

// The answer in what is said of a line: behind the line itself and a question, and in front of the next prompt.
function answerIn(said) {
  const answer = said.slice(said.indexOf('\n') + 1).replace(/^.*\(y, or another key\)\? .*\n/, '').replace(/p11> $/, ''), [, refusal, why] = /^(\? \d+ \w+)\n(?:  ([^]*?)\.?\n)?$/.exec(answer) ?? [];
  return { answer, reason: refusal ? `${refusal}: ${why ?? ''}` : '' };
}

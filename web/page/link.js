// The page's end of the engine: a worker that is made of the engine's sources, so that it also runs where the page was
// opened from a disk.
//   const link = new Link(sources); await link.ask('regs'); link.on('typed', ({ bytes }) => ..);
'use strict';

class Link {
  constructor(sources) {
    this.url = URL.createObjectURL(new Blob(sources, { type: 'text/javascript' }));
    this.worker = new Worker(this.url);
    this.asked = new Map();
    this.number = 0;
    this.heard = new Map();
    this.worker.onmessage = ({ data }) => this.take(data);
    this.worker.onerror = (event) => this.take({ event: 'lost', why: event.message });
  }

  take(message) {
    if (message.event) {
      this.heard.get(message.event)?.(message);
      return;
    }
    const { done, fail } = this.asked.get(message.id);
    this.asked.delete(message.id);
    if (message.error === undefined) done(message.result); else fail(new Error(message.error));
  }

  ask(call, args) {
    const id = ++this.number;
    return new Promise((done, fail) => {
      this.asked.set(id, { done, fail });
      this.worker.postMessage({ id, call, args });
    });
  }

  on(event, hear) { this.heard.set(event, hear); }
}

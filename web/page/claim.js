// One tab at a time has a session: a lock of the browser by the session's number.
//   const claim = await Claim.of(7, { isTaken, onlost }); claim.free();   null where another tab has it and it isn't to be taken over
// A tab that is just closing may have it still: so a claim waits a while, and longer where no tab has it and the browser is slow to
// grant it. Where the browser has no locks, as for a page from a disk, each claim is granted.
'use strict';

const CLAIM_MS = 1500;

const Claim = {
  name: (id) => `p11 session ${id}`,

  of(id, { isTaken = false, onlost }) {
    return new Promise((done) => {
      const free = { free() {} };
      let isHeld = false;
      if (!navigator.locks) { done(free); return; }
      const ask = () => navigator.locks.request(Claim.name(id), isTaken ? { steal: true } : { signal: AbortSignal.timeout(CLAIM_MS) }, () => {
        isHeld = true;
        return new Promise((end) => { done({ free: end }); });
      }).catch(async ({ name }) => {
        if (isHeld) onlost();
        else if (name === 'SecurityError') done(free);
        else if (name !== 'TimeoutError' || (await Claim.all()).has(Claim.name(id))) done(null);
        else ask();   // no tab has it: the browser was slow
      });
      ask();
    });
  },

  // The names of the sessions that some tab has.
  async all() {
    try {
      return new Set((await navigator.locks.query()).held.map(({ name }) => name));
    } catch {
      return new Set();
    }
  },
};

// The faults of the page's JavaScript, and why a machine was lost: the last of them, for a report.
//   Faults.add('app.js:7 ..'); Faults.report(record)   the text of a report
'use strict';

const MOST_FAULTS = 20, MOST_TAIL = 2000;

const Faults = {
  list: [],

  add(text) {
    this.list = [...this.list, `${new Date().toISOString()} ${text}`].slice(-MOST_FAULTS);
    this.show?.();
  },

  // What a report wants: which page this is, the browser, the faults, and the end of the record.
  report(record) {
    return [globalThis.P11_MADE, navigator.userAgent, ...this.list, 'The end of the record:', record.slice(-MOST_TAIL)].join('\n');
  },
};

addEventListener('error', ({ message, filename, lineno, error }) => Faults.add(`${message} (${filename}:${lineno}) ${error?.stack ?? ''}`));
addEventListener('unhandledrejection', ({ reason }) => Faults.add(`${reason?.message ?? reason} ${reason?.stack ?? ''}`));

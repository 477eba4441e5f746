// A real browser from a script: const page = await open(url, { downloads, command, home }); see page.js. command is that of the
// browser; CHROMIUM, or chromium, if it isn't named. home is the folder of its profile, a new one if it isn't named.
'use strict';
const { openChromium } = require('./chromium.js');
const { openFirefox } = require('./firefox.js');

const isFirefox = (command) => command.includes('firefox');

// The browser, with an empty page.
function launch({ downloads, home, command = process.env.CHROMIUM ?? 'chromium' }) {
  return (isFirefox(command) ? openFirefox : openChromium)(command, { downloads, home });
}

async function open(url, options) {
  const page = await launch(options);
  await page.goTo(url);
  return page;
}

module.exports = { open, launch, isFirefox };

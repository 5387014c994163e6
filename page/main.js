// The page: its two boxes, the examples, and what its buttons ask of the library.
import { ask, heard, start } from './ask.js';
import { Box, codeWords } from './box.js';
import { at } from './dom.js';
import { sayVerdict, showVerdict, startLeak } from './leak.js';
import { Orders } from './orders.js';
import { Running } from './running.js';
import { refusalWords } from './words.js';

const source = new Box(at('source'), {
  file: 'netlist.txt', pair: false, ends: 'Wanted codes of the outputs (0: any)',
});
const masked = new Box(at('masked'), {
  file: 'masked.txt', pair: true, ends: 'Codes of the outputs, as Mask gives them (a run takes these masks off)',
});
const running = new Running({ source, masked });
const orders = new Orders(async (text, codes) => {
  await masked.set(text, { codes: codes.map(String) });
  await check();
  at('verdict').scrollIntoView({ block: 'center' });
});

async function mask() {
  const netlist = await source.read();
  if (!netlist) return;
  const codes = source.codes();
  const answer = await ask('mask', netlist.text, codes, source.ends());
  if (answer.refused) return source.say('refused', refusalWords(answer));
  await masked.set(answer.text, {
    codes: codeWords(codes, netlist.shape.inputs), ends: codeWords(answer.codes, netlist.shape.outputs),
  });
  const [before, now] = [netlist, answer].map(({ shape }) => shape.gates.toLocaleString('en'));
  sayVerdict('', `Masked: ${before} gates became ${now}. Check says whether a wire leaks.`);
}

async function check() {
  const netlist = await masked.read();
  if (!netlist) return;
  const codes = masked.codes();
  await showVerdict(await ask('check', netlist.text, codes), netlist, codes);
}

/** What a button does; a list that is no list is told where the box tells its state. */
const button = (id, box, action) => at(id).addEventListener('click', async () => {
  try {
    await action();
  } catch (error) {
    box.say('refused', error.message);
  }
});

async function takeExample({ text, dataset }) {
  const box = { source, masked }[dataset.box];
  await box.set(`${text.trim()}\n`, { codes: dataset.codes.split(' ') });
  running.choose(dataset.box, dataset.run?.split(' '));
  if (box === masked) await check();
  else if (masked.text) await masked.set('');
}

function examples() {
  for (const example of document.querySelectorAll('.example')) {
    const made = document.createElement('button');
    Object.assign(made, { type: 'button', textContent: example.dataset.title });
    made.addEventListener('click', () => takeExample(example));
    at('examples').append(made, ' ');
  }
}

heard.addEventListener('answer', ({ detail: { service, milliseconds, memory } }) => {
  if (memory === undefined) return;
  const [time, megabytes] = [milliseconds.toFixed(1), Math.ceil(memory / 2 ** 20)];
  at('foot').textContent = `Last call: ${service}, ${time} ms; the library has ${megabytes} MB of memory.`;
});

/** The bytes of the module, which the page carries in base64. */
const wasm = () => Uint8Array.from(atob(at('wasm').textContent.trim()), (letter) => letter.charCodeAt(0));

try {
  const { version } = await start(at('worker').textContent, wasm());
  at('version').textContent = version ? ` Version ${version}.` : '';
  button('mask', source, mask);
  button('check', masked, check);
  examples();
  startLeak();
  await orders.try();
  document.documentElement.dataset.ready = 'yes';
} catch (error) {
  at('trouble').hidden = false;
  at('trouble').textContent = `This browser cannot run the page (${error.message}). ${at('needs').textContent.trim()}`;
}

// How long a keystroke takes in Chromium, from the key to the frame that shows it:
// node web/tests/speed.mjs [KEYS [BYTES]]
//
// The text is example probes, one after the other. A statement is typed in its middle and taken back, each key when the
// one before it shows. Two times are told. The first is from the key's event up to the first task after its frame, by
// the clock: rows, tree, message, the browser's own layout and painting are in it. Frames begin at once
// (--disable-frame-rate-limit); with a screen's rate a wait for it comes on top. The second is the processor's time of
// the page's main thread for the same, which hangs less on what else runs. The two questions that ask for it are in it.
import { readdirSync, readFileSync } from 'node:fs';
import { cpus, loadavg } from 'node:os';
import { built, root } from './check.mjs';
import { chromium, Tab } from './browser.mjs';

const [keys = 500, bytes = 60000] = process.argv.slice(2).map(Number);

if (chromium() === null) {
  console.log('left out: there is no Chromium here');
  process.exit(0);
}
const examples = readdirSync(`${root}/examples`).sort().map((name) => readFileSync(`${root}/examples/${name}`, 'utf8')).join('\n');
const whole = examples.repeat(Math.floor(bytes / Buffer.byteLength(examples)));
const text = `${whole}${'/'.repeat(Math.max(2, bytes - Buffer.byteLength(whole) - 1))}\n`;

const tab = await Tab.open(`file://${built}/index.html`, { flags: ['--disable-frame-rate-limit', '--disable-gpu-vsync'] });
await tab.value(`(() => {
  const area = document.getElementById('text');
  area.value = ${JSON.stringify(text)};
  area.dispatchEvent(new Event('input'));
  const middle = area.value.indexOf('return', area.value.length / 2);
  area.focus();
  area.setSelectionRange(middle, middle);
  area.scrollTop = area.value.slice(0, middle).split('\\n').length * 20 - 300;
  let pressed = 0;
  area.addEventListener('keydown', (event) => {
    pressed = event.timeStamp;
    window.shown = new Promise((shown) => { window.tell = shown; });
  }, true);
  area.addEventListener('input', () => requestAnimationFrame(() => {
    const { port1, port2 } = new MessageChannel();
    port1.onmessage = () => tell(performance.now() - pressed);
    port2.postMessage(0);
  }));
})()`);
await tab.send('Performance.enable', { timeDomain: 'threadTicks' });
const busy = async () => (await tab.send('Performance.getMetrics')).metrics.find(({ name }) => name === 'TaskDuration').value * 1000;

const typed = 'reg a1 = (ctx.load_u64(8) + 2) << 3; '.split('');
const [clock, processor] = [[], []];
for (let key = 0; key < keys; key++) {
  const at = key % (2 * typed.length);
  const before = await busy();
  await (at < typed.length ? tab.type(typed[at]) : tab.press('Backspace'));
  clock.push(await tab.value('window.shown'));
  processor.push(await busy() - before);
}
const told = (times) => {
  times.sort((a, b) => a - b);
  return [0.5, 0.9, 0.99].map((share) => times[Math.floor((times.length - 1) * share)].toFixed(1)).join(', ');
};
const machine = `${cpus().length} cores with a load of ${loadavg()[0].toFixed(1)}`;
console.log(`${keys} keys in ${Buffer.byteLength(text)} bytes; ${machine}; medians, 90th and 99th percentiles in ms`);
console.log(`to the screen by the clock: ${told(clock)}`);
console.log(`processor's time of the main thread: ${told(processor)}`);
await tab.close();

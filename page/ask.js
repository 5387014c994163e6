// The page's side of the Worker: each question is a promise, so the page goes on while a whole cipher is masked.

/** Told after each answer: the service, its milliseconds in the library, and the library's memory in bytes. */
export const heard = new EventTarget();

const waiting = new Map();
let worker;
let last = 0;

/** Marks the page as busy while an answer is waited for. */
const sayBusy = () => document.querySelector('main').setAttribute('aria-busy', String(waiting.size > 0));

/** Starts the Worker on its script and the module's bytes; fails where the browser cannot run the module. */
export function start(script, wasm) {
  worker = new Worker(URL.createObjectURL(new Blob([script], { type: 'text/javascript' })));
  worker.onmessage = ({ data }) => {
    const { resolve, reject, service } = waiting.get(data.id);
    waiting.delete(data.id);
    sayBusy();
    if (data.error) return reject(new Error(data.error));
    heard.dispatchEvent(new CustomEvent('answer', { detail: { service, ...data } }));
    resolve(data.answer);
  };
  worker.onerror = ({ message }) => waiting.forEach(({ reject }) => reject(new Error(message)));
  return ask('open', wasm);
}

/** Asks the library: a service of the Worker, and what it takes. */
export function ask(service, ...list) {
  return new Promise((resolve, reject) => {
    waiting.set(++last, { resolve, reject, service });
    worker.postMessage({ id: last, service, list });
    sayBusy();
  });
}

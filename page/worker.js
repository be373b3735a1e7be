// The engine in a thread of its own. This follows the text of engine.js in the worker's program.
let engine = null;

self.onmessage = async ({ data: { module, isNew, frames } }) => {
  engine ??= Engine.load(module);
  try {
    const loaded = await engine;
    if (isNew) loaded.open();
    if (frames) self.postMessage({ bytes: loaded.ask(frames) });
  } catch (fault) {
    if (frames) self.postMessage({ fault: fault.message });
  }
};

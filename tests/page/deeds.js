// What the tests do to the page itself: what it does from then on is kept, or goes wrong. It stands below looks.js.
const keptClick = (keep) => {
  const { click } = HTMLAnchorElement.prototype;
  HTMLAnchorElement.prototype.click = function () { keep(this); click.call(this); };
};
const keptObject = (keep) => {
  const make = URL.createObjectURL;
  URL.createObjectURL = (blob) => { keep(blob); return make.call(URL, blob); };
};
Object.assign(looks, {
  keepReading() {
    const { text } = Blob.prototype;
    window.isRead = false;
    Blob.prototype.text = async function () { Blob.prototype.text = text; const read = await text.call(this); setTimeout(() => { window.isRead = true; }); return read; };
  },
  keepCopied: () => { window.copied = null; window.addEventListener("copy", ({ clipboardData }) => { window.copied = clipboardData.getData("text/plain"); }, { once: true }); },
  keepSaved() {
    keptObject((blob) => blob.text().then((text) => { window.savedText = text; }));
    keptClick((link) => { window.savedName = link.download; });
  },
  keepCalls() {
    const post = Worker.prototype.postMessage;
    window.calls = 0;
    Worker.prototype.postMessage = function (...given) { window.calls += 1; return post.apply(this, given); };
  },
  keepSent() { // of each message whether it begins a session, and how many requests it has; where `broken` says so, the engine is lost
    const post = Worker.prototype.postMessage;
    window.sent = [];
    Worker.prototype.postMessage = function (given, ...more) {
      if (window.broken) { const message = window.broken; window.broken = ""; setTimeout(() => this.onerror({ message })); return undefined; }
      if (given.frames) window.sent.push([Boolean(given.isNew), (new TextDecoder().decode(given.frames).match(/"seq":/g) || []).length]);
      return post.call(this, given, ...more);
    };
  },
  keepErrors: () => { window.noticed = []; window.addEventListener("error", ({ message }) => window.noticed.push(message)); },
  keepTimes: () => { // milliseconds from each key to the frame that shows it
    document.addEventListener("keydown", ({ timeStamp }) => requestAnimationFrame(() => {
      const { port1, port2 } = new MessageChannel();
      port1.onmessage = () => window.timed.push(performance.now() - timeStamp);
      port2.postMessage(0);
    }), true);
  },
  keepDid: () => { window.said = []; new MutationObserver(() => window.said.push(byId("did").textContent)).observe(byId("did"), { childList: true }); },
  keepTold() { // how the log is read out, and what the regions say that are
    window.lives = [];
    window.told = [];
    new MutationObserver(() => window.lives.push(byId("log").getAttribute("aria-live"))).observe(byId("log"), { childList: true });
    for (const live of all("[role=status], [role=alert]")) new MutationObserver(() => window.told.push(live.textContent.trim())).observe(live, { childList: true, subtree: true });
  },
  keepAll() { // for a browser that has no folder for what is saved and no log of what went wrong
    window.complaints = [];
    window.addEventListener("error", ({ message }) => window.complaints.push(message));
    window.addEventListener("unhandledrejection", ({ reason }) => window.complaints.push(String(reason)));
    console.error = (...words) => window.complaints.push(words.join(" "));
    keptObject((blob) => blob.arrayBuffer().then((bytes) => { window.saved = [...new Uint8Array(bytes)]; }));
  },
  remove: (selector) => one(selector).remove(),
  scrollUp: (id) => { byId(id).scrollTop = 0; },
  scriptless: () => { document.execCommand = () => false; },
  beforePrint: () => { window.dispatchEvent(new Event("beforeprint")); },
  inject() {
    const [box, script] = ["div", "script"].map((name) => document.createElement(name));
    window.ran = 0;
    box.innerHTML = '<img src="data:," onerror="window.ran = 1">';
    script.textContent = "window.ran = 2";
    document.body.append(box, script);
  },
  jump: (link) => { location.hash = link.split("#").pop(); },
  isAt: (link) => location.href.endsWith(link.split("#").pop()),
  isInHistory: () => history.state !== null,
  set: (name, value) => { window[name] = value; },
  kept: (name) => window[name],
  taken: (name) => { const found = window[name]; window[name] = []; return found; },
});

// Tests the packed extension in a stand-in for VS Code: node tests/extension/run.cjs PROGRAM [PAGE]
// PAGE has the engine; without it, it is docs/mixrev.html. VS Code itself is not tested. The last
// line counts.
"use strict";
const { execFileSync } = require("node:child_process");
const fs = require("node:fs");
const os = require("node:os");
const path = require("node:path");
const { isDeepStrictEqual } = require("node:util");
const { hostOf } = require("./host.cjs");
const { adapter } = require("./adapter.cjs");
const { server } = require("./server.cjs");

const TOP = path.join(__dirname, "../..");
const MOST = 600000; // bytes of the extension
let [passed, failed] = [0, 0];

function row(name, found, wanted) {
  const isRight = isDeepStrictEqual(JSON.parse(JSON.stringify(found ?? null)), wanted);
  [passed, failed] = isRight ? [passed + 1, failed] : [passed, failed + 1];
  if (!isRight) console.log(`FAILED ${name}: ${JSON.stringify(found)}, and ${JSON.stringify(wanted)} was wanted`.slice(0, 2000));
}

// The size, the files that its lists name, the version, the arguments of a launch.
function packed({ size, files, room }) {
  console.log(`the extension has ${size} bytes`);
  row(`${size} bytes`, size <= MOST, true);
  const about = JSON.parse(files.get("/extension/package.json"));
  const named = [about.main, about.browser, about.icon, ...about.contributes.languages.map((one) => one.configuration), ...about.contributes.grammars.map((one) => one.path)];
  const manifest = fs.readFileSync(path.join(room, "extension.vsixmanifest"), "utf8");
  for (const [, name] of manifest.matchAll(/extension\/([\w.]+)/g)) named.push(name);
  for (const name of named) row(`there is ${name}`, files.has(`/extension/${name.replace(/^\.\//, "")}`), true);
  const [, version] = /^mixrev \((\S+)\)/.exec(fs.readFileSync(path.join(TOP, "package/changelog"), "utf8"));
  row("the version", [about.version, manifest.includes(` Version="${about.version}"`)], [version, true]);
  const [, said] = /^\| `launch` \| \|([^|]*)\|$/m.exec(fs.readFileSync(path.join(TOP, "docs/DAP.md"), "utf8"));
  const names = [...said.matchAll(/`(\w+)`/g)].map(([, name]) => name).filter((name) => name !== "noDebug"); // VS Code's own
  row("the arguments of a launch", Object.keys(about.contributes.debuggers[0].configurationAttributes.launch.properties).sort(), names.sort());
  row("a picture in README", /!\[[^\]]*\]\(data:image\/png;base64,iVBOR/.test(files.get("/extension/README.md")), true);
}

(async () => {
  const program = path.resolve(process.argv[2]);
  const page = path.resolve(process.argv[3] ?? path.join(TOP, "docs/mixrev.html"));
  const room = fs.mkdtempSync(path.join(os.tmpdir(), "extension-"));
  try {
    execFileSync(path.join(TOP, "tests/install"), ["unzip", "chromium"], { stdio: "inherit" });
    const vsix = execFileSync(path.join(TOP, "editors/vscode/pack"), [room, page], { encoding: "utf8" }).trim();
    execFileSync("unzip", ["-q", vsix, "-d", room]);
    const files = new Map();
    const inside = path.join(room, "extension");
    for (const name of fs.readdirSync(inside, { recursive: true })) {
      if (fs.statSync(path.join(inside, name)).isFile()) files.set(`/extension/${name}`, fs.readFileSync(path.join(inside, name)));
    }
    const read = (uri) => files.get(uri.path) ?? files.get(uri.toString()) ?? fs.readFileSync(uri.fsPath);
    const host = hostOf((uri) => Buffer.from(read(uri)), require);
    const given = { row, note: console.log, program, room, host, files };
    packed({ ...given, size: fs.statSync(vsix).size });
    await server(given);
    await adapter(given);
  } finally {
    fs.rmSync(room, { recursive: true });
  }
  console.log(`${passed} passed, ${failed} failed`);
  process.exit(failed ? 1 : 0);
})();

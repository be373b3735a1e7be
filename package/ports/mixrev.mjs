#!/usr/bin/env node
// The program in Node 18 or later: `node mixrev.mjs WORD..` does what `mixrev WORD..` does. The last line packs the
// program as a module of WebAssembly; above it are the functions of C that the module calls, over Node's files.
import fs from "node:fs";
import { isatty } from "node:tty";
import { gunzipSync } from "node:zlib";

// The errors of Linux that the program knows: number and text.
const ERRORS = {
  EPERM: [1, "Operation not permitted"], ENOENT: [2, "No such file or directory"], EINTR: [4, "Interrupted system call"],
  EIO: [5, "Input/output error"], EBADF: [9, "Bad file descriptor"], EAGAIN: [11, "Resource temporarily unavailable"],
  ENOMEM: [12, "Cannot allocate memory"], EACCES: [13, "Permission denied"], EBUSY: [16, "Device or resource busy"],
  EEXIST: [17, "File exists"], EXDEV: [18, "Invalid cross-device link"], ENODEV: [19, "No such device"],
  ENOTDIR: [20, "Not a directory"], EISDIR: [21, "Is a directory"], EINVAL: [22, "Invalid argument"],
  EMFILE: [24, "Too many open files"], ENOTTY: [25, "Inappropriate ioctl for device"], EFBIG: [27, "File too large"],
  ENOSPC: [28, "No space left on device"], ESPIPE: [29, "Illegal seek"], EROFS: [30, "Read-only file system"],
  EPIPE: [32, "Broken pipe"], ENAMETOOLONG: [36, "File name too long"], ENOTEMPTY: [39, "Directory not empty"],
  ELOOP: [40, "Too many levels of symbolic links"], ENXIO: [6, "No such device or address"],
};
const FLAGS = { O_WRONLY: 1, O_RDWR: 2, O_CREAT: 0o100, O_EXCL: 0o200, O_TRUNC: 0o1000, O_APPEND: 0o2000 };
const NO_FOLLOW = 0x100;
const MOST = 1 << 30; // bytes of one read or write
const LONGEST = 4096; // bytes of a name with its 0
const on_windows = process.platform === "win32";
const slashes = (name) => (on_windows ? name.replaceAll("\\", "/") : name);

const words = ["mixrev", ...process.argv.slice(2).map(slashes)];
const environment = Object.entries(process.env).map(([name, value]) => `${name}=${value}`);
let exports = null;
let errno = 0;

const bytes = (at, length) => Buffer.from(exports.memory.buffer, at, length);
function name_at(at) {
  const room = bytes(at, Math.min(LONGEST, exports.memory.buffer.byteLength - at));
  return room.subarray(0, room.indexOf(0));
}

// A text's length, -1 if there is none, -2 if it does not fit; then the room is full.
function put(text, at, room) {
  if (text === undefined) return -1;
  const data = Buffer.from(text);
  data.copy(bytes(at, room));
  return data.length <= room ? data.length : -2;
}

function fails(code) {
  throw Object.assign(new Error(code), { code });
}

// A stream that another program has made non-blocking is asked again after a while.
function patiently(call) {
  for (;;) {
    try {
      return call();
    } catch (fault) {
      if (fault.code === "EOF") return 0; // the end of a pipe on Windows
      if (fault.code !== "EAGAIN") throw fault;
      Atomics.wait(new Int32Array(new SharedArrayBuffer(4)), 0, 0, 5);
    }
  }
}

function statx(fd, path, flags, mask, to) {
  const name = name_at(path);
  const look = flags & NO_FOLLOW ? fs.lstatSync : fs.statSync;
  const about = name.length === 0 ? fs.fstatSync(fd) : look(name);
  bytes(to, 256).fill(0);
  const view = new DataView(exports.memory.buffer, to, 256);
  view.setUint32(0, 0x7ff, true);
  view.setUint32(16, about.nlink, true);
  view.setUint16(28, about.mode, true);
  view.setBigUint64(32, BigInt.asUintN(64, BigInt(about.ino)), true);
  view.setBigUint64(40, BigInt(about.size), true);
  view.setUint32(140, about.dev, true);
}

function realpath(path, to) {
  const name = `${slashes(fs.realpathSync(name_at(path), "latin1"))}\0`;
  if (name.length > LONGEST) fails("ENAMETOOLONG");
  bytes(to, name.length).write(name, "latin1");
  return to;
}

// Functions with a result of 32 bits, and of 64.
const narrow = {
  open(path, flags) {
    const how = Object.keys(FLAGS).filter((it) => flags & FLAGS[it]);
    return fs.openSync(name_at(path), how.reduce((all, it) => all | fs.constants[it], 0), 0o666);
  },
  close: (fd) => fs.closeSync(fd),
  isatty: (fd) => (isatty(fd) ? 1 : (([errno] = ERRORS.ENOTTY), 0)),
  statx,
  rename: (from, to) => fs.renameSync(name_at(from), name_at(to)),
  unlink: (path) => fs.unlinkSync(name_at(path)),
  ftruncate: (fd, length) => fs.ftruncateSync(fd, length),
  fchmod: (fd, mode) => fs.fchmodSync(fd, mode),
  fsync: (fd) => fs.fsyncSync(fd),
  fdatasync: (fd) => fs.fdatasyncSync(fd),
  flock: () => 0,
  __xpg_strerror_r(error, at, room) {
    const [, text] = Object.values(ERRORS).find(([number]) => number === error) ?? [error, `Unknown error ${error}`];
    bytes(at, room).write(`${text}\0`);
  },
  rattle_errno: () => errno,
  rattle_set_errno: (error) => void (errno = error),
};
const wide = {
  read: (fd, at, length) => patiently(() => fs.readSync(fd, bytes(at, Math.min(length, MOST)))),
  write: (fd, at, length) => patiently(() => fs.writeSync(fd, bytes(at, Math.min(length, MOST)))),
  lseek: () => fails("ESPIPE"),
  realpath,
  rattle_arg: (index, at, room) => put(words[index], at, room),
  rattle_env: (name, at, room) => put(process.env[name_at(name)], at, room),
  rattle_env_at: (index, at, room) => put(environment[index], at, room),
  __sysv_signal: () => 0, // Node ignores SIGPIPE already
};

// A function as the module calls it. If it fails, the program asks for the error's number.
function guarded(call, failed) {
  return (...given) => {
    try {
      return call(...given.map(Number)) ?? 0;
    } catch (fault) {
      if (fault instanceof RangeError || fault instanceof TypeError) throw fault;
      [errno] = ERRORS[fault.code] ?? ERRORS.EIO;
      return failed;
    }
  };
}
const env = {};
for (const [name, call] of Object.entries(narrow)) env[name] = guarded(call, -1);
for (const [name, call] of Object.entries(wide)) {
  const it = guarded(call, name === "realpath" ? 0 : -1);
  env[name] = (...given) => BigInt(it(...given));
}

const own = fs.readFileSync(new URL(import.meta.url), "latin1");
const packed = own.slice(own.lastIndexOf("\n// ") + 4);
if (words[1] === "debug" && isatty(0)) process.on("SIGINT", () => {}); // Ctrl-C leaves the line and not the session
try {
  exports = new WebAssembly.Instance(new WebAssembly.Module(gunzipSync(Buffer.from(packed, "base64"))), { env }).exports;
  process.exitCode = exports.mixrev_main();
} catch (fault) {
  fs.writeSync(2, `mixrev: ${fault}\n`);
  process.exitCode = 134;
}

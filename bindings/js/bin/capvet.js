#!/usr/bin/env node
// The program `capvet`. It is the WASI module beside this file, which gets the words and the standard streams of this process.
//
// The file that it reads is opened here by its name, and not by node:wasi. That knows no drives, and finds nothing at the names
// `/dev/fd/3` and `link/../file`.
import { closeSync, fstatSync, openSync, readFileSync, readSync } from "node:fs";
import { fileURLToPath } from "node:url";

// The numbers of WASI for errors of the system. Any other becomes EIO.
const ERRORS = {
  EACCES: 2, EAGAIN: 6, EBADF: 8, EBUSY: 10, EINVAL: 28, EIO: 29, EISDIR: 31, ELOOP: 32, EMFILE: 33, ENAMETOOLONG: 37,
  ENFILE: 41, ENODEV: 43, ENOENT: 44, ENOMEM: 48, ENOTDIR: 54, ENXIO: 60, EPERM: 63,
};
// WASI's kinds of files.
const DIRECTORY = 3, REGULAR = 4;
// The module has these numbers for files that are opened here. Below them are the standard streams.
const OURS = 1 << 16;

// (an error that isn't caught would end Node with status 1, which means that a message is refused)
process.on("uncaughtException", (error) => {
  console.error(`capvet: ${error.message}`);
  process.exit(3);
});
// (the warning that node:wasi is experimental)
process.removeAllListeners("warning");
const { WASI } = await import("node:wasi");

const folder = fileURLToPath(new URL(".", import.meta.url));
// (without a folder the module can't ask for any file)
const wasi = new WASI({ version: "preview1", args: ["capvet", ...process.argv.slice(2)], preopens: { "/": folder }, returnOnExit: true });
const system = wasi.wasiImport;
const bytes = (address, length) => new Uint8Array(instance.exports.memory.buffer, address, length);
const words = (address, length) => new DataView(instance.exports.memory.buffer, address, length);

/** Makes a call for the module, and gives what the module gets: 0, or the number of an error. */
function answer(call) {
  try {
    call();
    return 0;
  } catch (error) {
    return ERRORS[error.code] ?? ERRORS.EIO;
  }
}

const files = {
  path_open(_folder, _links, name, length, _how, _rights, _inherited, _flags, opened) {
    // (the program has put `./` before the name)
    const path = Buffer.from(bytes(name + 2, length - 2)).toString();
    return answer(() => words(opened, 4).setUint32(0, OURS + openSync(path), true));
  },

  fd_read(file, parts, count, taken) {
    if (file < OURS) return system.fd_read(file, parts, count, taken);
    // (a read may be short, and the program reads into one part)
    const part = words(parts, 8);
    const place = bytes(part.getUint32(0, true), part.getUint32(4, true));
    return answer(() => words(taken, 4).setUint32(0, readSync(file - OURS, place), true));
  },

  fd_filestat_get(file, place) {
    if (file < OURS) return system.fd_filestat_get(file, place);
    return answer(() => {
      const found = fstatSync(file - OURS);
      bytes(place, 64).fill(0)[16] = found.isFile() ? REGULAR : found.isDirectory() ? DIRECTORY : 0;
      words(place, 64).setBigUint64(32, BigInt(found.size), true);
    });
  },

  fd_close(file) {
    return file < OURS ? system.fd_close(file) : answer(() => closeSync(file - OURS));
  },
};

const module = new WebAssembly.Module(readFileSync(`${folder}capvet.wasm`));
const instance = new WebAssembly.Instance(module, { wasi_snapshot_preview1: { ...system, ...files } });
process.exitCode = wasi.start(instance);

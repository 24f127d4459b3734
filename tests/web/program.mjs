// Runs the module of the page as the program, over the files and streams of the system: program.mjs MODULE WORDS..

import fs from "node:fs";
import tty from "node:tty";
import { start } from "../../web/program.mjs";

/** Answers a call of the system, or the number of its error below zero. A pipe that nobody reads ends the program, as its signal does. */
function tried(call) {
  try {
    return call();
  } catch (error) {
    if (error.code === "EPIPE") process.exit(128 + 13);
    return error.errno ?? -1;
  }
}

// Words may be no UTF-8, so they are taken as the system has them.
const given = fs.readFileSync("/proc/self/cmdline");
const words = [];
for (let at = 0; at < given.length; at = given.indexOf(0, at) + 1) words.push(given.subarray(at, given.indexOf(0, at)));
const script = words.findIndex((word) => word.toString().endsWith("program.mjs"));

const host = {
  open: (path) => tried(() => fs.openSync(path, "r")),
  read: (file, into) => tried(() => fs.readSync(file, into)),
  write: (file, from) => tried(() => fs.writeSync(file, from)),
  close: (file) => tried(() => fs.closeSync(file) ?? 0),
  isTerminal: (file) => tty.isatty(file),
};
const module = new WebAssembly.Module(fs.readFileSync(words[script + 1]));
process.exitCode = start(module, [Buffer.from("p21"), ...words.slice(script + 2)], host);

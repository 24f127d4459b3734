// Runs the program. Each run has an instance, a memory and streams of its own, so that nothing stays from one to the next.

/**
 * Runs a module with the words of a command line, and answers the exit status.
 *
 * `host` has the files: `open(path)` answers a descriptor, `read(file, into)` and `write(file, from)` how many bytes they took, and
 * each -1 or the number of an error below zero where it fails; `isTerminal(file)` says whether a person reads along.
 */
export function start(module, words, host) {
  let memory;
  const bytes = (at, count) => new Uint8Array(memory.buffer, Number(at), Number(count));
  const path = (at) => {
    const rest = new Uint8Array(memory.buffer, Number(at));
    return new TextDecoder().decode(rest.slice(0, rest.indexOf(0)));
  };
  const word = (number, at, room) => {
    if (number >= BigInt(words.length)) return -1n;
    const text = words[Number(number)];
    const fits = text.subarray(0, Number(room));
    bytes(at, fits.length).set(fits);
    return fits.length < text.length ? -2n : BigInt(text.length);
  };
  const imports = {
    word,
    open: (at) => host.open(path(at)),
    read: (file, at, count) => BigInt(host.read(file, bytes(at, count))),
    write: (file, at, count) => BigInt(host.write(file, bytes(at, count))),
    close: (file) => host.close(file),
    isTerminal: (file) => Number(host.isTerminal(file)),
  };
  const { exports } = new WebAssembly.Instance(module, { host: imports });
  memory = exports.memory;
  return exports.p21_main();
}

/** A text in memory, to be read piece by piece. */
export class Text {
  constructor(bytes) {
    this.bytes = bytes;
    this.size = bytes.length;
  }

  /** What stands from a place on, at most so many bytes of it. */
  piece(at, count) {
    return this.bytes.subarray(at, at + count);
  }
}

/** The files of one run: those that it may open, by their names, and the two streams that it writes to, the first of which `take` may
 *  have piece by piece. */
class Streams {
  constructor(files, heard, take) {
    this.files = files;
    this.heard = heard;
    this.take = take;
    this.opened = new Map();
    this.written = { 1: [], 2: [] };
  }

  open(path) {
    const file = this.files[path];
    if (!file) return -1;
    const descriptor = 3 + this.opened.size;
    this.opened.set(descriptor, { path, file, at: 0 });
    return descriptor;
  }

  read(descriptor, into) {
    const found = this.opened.get(descriptor);
    if (!found) return -1;
    try {
      const piece = found.file.piece(found.at, into.length);
      into.set(piece);
      found.at += piece.length;
      this.heard(found.path, found.at);
      return piece.length;
    } catch {
      return -1;
    }
  }

  write(descriptor, from) {
    if (descriptor === 1 && this.take) this.take(from);
    else this.written[descriptor].push(from.slice());
    return from.length;
  }

  close() {
    return 0;
  }

  isTerminal() {
    return false;
  }
}

/** Bytes behind one another as one. */
export function joined(pieces) {
  const whole = new Uint8Array(pieces.reduce((sum, piece) => sum + piece.length, 0));
  let at = 0;
  for (const piece of pieces) {
    whole.set(piece, at);
    at += piece.length;
  }
  return whole;
}

/** What keeps the program from its answer where that isn't its own line. */
export class Trouble extends Error {}

/** What the program wrote to its second stream, without its notes, which name files as they are handed to it, and the last line end. */
function withoutNotes(text) {
  const lines = text.split("\n").filter((line) => !line.startsWith("note: "));
  return lines.join("\n").replace(/\n$/, "");
}

/** The program, ready to be run any number of times. */
export class Program {
  constructor(module) {
    this.module = module;
  }

  /**
   * Runs a command over these files, which are texts by the names that the words give them. Answers what it wrote: bytes to
   * the first stream, and to the second a line without its end and without notes. `heard` is told how far each file is read, and
   * `take` has what is written to the first stream as it comes, where there is one: in the memory of the program.
   */
  run(words, files = {}, heard = () => {}, take = null) {
    const streams = new Streams(files, heard, take);
    const encoded = ["p21", ...words].map((word) => new TextEncoder().encode(word));
    let status;
    try {
      status = start(this.module, encoded, streams);
    } catch (error) {
      throw new Trouble(`the browser stopped the program: ${error.message}`);
    }
    const error = withoutNotes(new TextDecoder().decode(joined(streams.written[2])));
    return { output: joined(streams.written[1]), error, status };
  }
}

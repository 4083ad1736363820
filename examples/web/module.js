// The WebAssembly module and its six calls: text in, text out. `othsolve.js` and `worker.js` stand on it.

// What a module with a 64-bit memory of one page is made of.
const WIDE = Uint8Array.of(0, 97, 115, 109, 1, 0, 0, 0, 5, 3, 1, 4, 1);
const PAGE = 65_536;
// No reply is longer: crates/oth_web says so.
const REPLY = 16_640;

const MISSING =
  "WebAssembly with a 64-bit memory (memory64) is missing here. Newer browsers have it (tried: Chromium 156), and Node 20 has it " +
  "with the option --experimental-wasm-memory64.";

/** Thrown where WebAssembly with a 64-bit memory is missing. */
export class Unsupported extends Error {
  constructor() {
    super(MISSING);
    this.name = "Unsupported";
  }
}

/** Whether WebAssembly with a 64-bit memory is there. */
export function isSupported() {
  return typeof WebAssembly === "object" && WebAssembly.validate(WIDE);
}

async function bytesOf(url) {
  if (url.protocol === "file:") {
    const { readFile } = await import("node:fs/promises");
    return readFile(url);
  }
  const answer = await fetch(url);
  if (!answer.ok) {
    throw new Error(`${url} can't be read: ${answer.status} ${answer.statusText}`);
  }
  return answer.arrayBuffer();
}

/** Compiles the file beside this one. */
export async function compile() {
  if (!isSupported()) {
    throw new Unsupported();
  }
  return WebAssembly.compile(await bytesOf(new URL("othsolve.wasm", import.meta.url)));
}

/** An instance of the module. It keeps nothing from call to call but its room, which grows with the longest line. */
export class Solver {
  #calls;
  #base;

  constructor(module) {
    this.#calls = new WebAssembly.Instance(module).exports;
    this.#base = Number(this.#calls.__heap_base.value);
  }

  /** Bytes of the module's memory. */
  get size() {
    return this.#calls.memory.buffer.byteLength;
  }

  /**
   * Returns the bytes that the command writes of a line, without the last byte 10.
   * `settings`: scoring 0 or 1; for `analyse` also the number of the line and the empty squares from which on it is analysed.
   */
  reply(command, line, settings) {
    const from = this.#base + REPLY;
    this.#makeRoom(from + line.length);
    new Uint8Array(this.#calls.memory.buffer, from, line.length).set(line);
    const texts = [BigInt(from), BigInt(line.length), BigInt(this.#base), BigInt(REPLY)];
    const length = Number(this.#call(command, settings, texts));
    return new Uint8Array(this.#calls.memory.buffer, this.#base, length).slice();
  }

  #call(command, { scoring, number, last }, texts) {
    const calls = this.#calls;
    switch (command) {
      case "solve":
        return calls.oth_web_solve(scoring, ...texts);
      case "scores":
        return calls.oth_web_scores(scoring, ...texts);
      case "moves":
        return calls.oth_web_moves(...texts);
      case "transcript":
        return calls.oth_web_transcript(...texts);
      case "play":
        return calls.oth_web_play(...texts);
      case "analyse":
        return calls.oth_web_analyse(scoring, BigInt(number), last, ...texts);
      default:
        throw new RangeError(`${command} is no command`);
    }
  }

  #makeRoom(end) {
    const { memory } = this.#calls;
    const missing = Math.ceil((end - this.size) / PAGE);
    if (missing <= 0) {
      return;
    }
    try {
      memory.grow(BigInt(missing));
    } catch (error) {
      if (!(error instanceof TypeError)) {
        throw error;
      }
      // Older engines take a number here.
      memory.grow(missing);
    }
  }
}

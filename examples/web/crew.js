// Workers that answer lines side by side. A call that is ended takes its worker with it; another one is started in its place.

async function startNode() {
  const { Worker } = await import("node:worker_threads");
  const worker = new Worker(new URL("worker.js", import.meta.url));
  // A crew that is idle keeps no program from its end.
  worker.unref();
  return {
    post: (asked) => {
      worker.ref();
      worker.postMessage(asked);
    },
    hear: (told, failed) => {
      worker.on("message", (answer) => {
        worker.unref();
        told(answer);
      });
      worker.on("error", failed);
    },
    end: () => worker.terminate(),
  };
}

function startBrowser() {
  const worker = new Worker(new URL("worker.js", import.meta.url), { type: "module" });
  return {
    post: (asked) => worker.postMessage(asked),
    hear: (told, failed) => {
      worker.addEventListener("message", (event) => told(event.data));
      worker.addEventListener("error", (event) => failed(new Error(event.message || "a worker can't be started")));
    },
    end: () => worker.terminate(),
  };
}

const start = async () => (typeof Worker === "undefined" ? startNode() : startBrowser());

// What each signal ends, by one listener, however many calls it is given to.
const ends = new WeakMap();

/** Calls `end` where the signal is aborted. Returns what ends that. */
function onAbort(signal, end) {
  if (!signal) {
    return () => {};
  }
  let all = ends.get(signal);
  if (!all) {
    all = new Set();
    ends.set(signal, all);
    const every = () => [...all].forEach((one) => one());
    signal.addEventListener("abort", every, { once: true });
  }
  all.add(end);
  return () => all.delete(end);
}

/** How many workers there may be, where nobody says it. Node has the browser's word for it from 21 on. */
export const PROCESSORS = globalThis.navigator?.hardwareConcurrency ?? (await import("node:os")).availableParallelism();

export class Crew {
  #module;
  #most;
  #idle = [];
  #busy = 0;
  #waiting = [];

  constructor(module, most) {
    this.#module = module;
    this.#most = most;
  }

  /** Asks for the reply of a line. Rejected with the signal's reason where that ends it. */
  ask(command, line, settings, signal) {
    return new Promise((tell, fail) => {
      if (signal?.aborted) {
        fail(signal.reason);
        return;
      }
      const task = { command, line, settings, tell, fail, signal };
      task.unheard = onAbort(signal, () => {
        this.#waiting = this.#waiting.filter((other) => other !== task);
        fail(signal.reason);
      });
      this.#waiting.push(task);
      this.#next();
    });
  }

  /** Ends all workers that have nothing to do. */
  close() {
    for (const worker of this.#idle.splice(0)) {
      worker.end();
    }
  }

  async #next() {
    if (this.#waiting.length === 0 || this.#busy >= this.#most) {
      return;
    }
    this.#busy += 1;
    const task = this.#waiting.shift();
    task.unheard();
    let worker;
    try {
      worker = this.#idle.pop() ?? (await start());
      const reply = await this.#done(worker, task);
      this.#idle.push(worker);
      task.tell(reply);
    } catch (error) {
      worker?.end();
      task.fail(error);
    } finally {
      this.#busy -= 1;
      this.#next();
    }
  }

  #done(worker, { command, line, settings, signal }) {
    return new Promise((tell, fail) => {
      if (signal?.aborted) {
        fail(signal.reason);
        return;
      }
      const unheard = onAbort(signal, () => fail(signal.reason));
      worker.told = ({ reply, error }) => {
        unheard();
        if (error === undefined) {
          tell(reply);
        } else {
          fail(new Error(error));
        }
      };
      worker.failed = (error) => {
        unheard();
        fail(error);
      };
      if (!worker.heard) {
        worker.heard = true;
        worker.hear(
          (answer) => worker.told(answer),
          (error) => worker.failed(error),
        );
      }
      worker.post({ module: this.#module, command, line, settings });
    });
  }
}

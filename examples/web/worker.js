// One worker: it answers a line at a time. In a browser it is a module worker, in Node a thread.
import { Solver } from "./module.js";

function answerer(post) {
  let solver;
  return ({ module, command, line, settings }) => {
    try {
      solver ??= new Solver(module);
      post({ reply: solver.reply(command, line, settings) });
    } catch (error) {
      post({ error: String(error) });
    }
  };
}

if (typeof WorkerGlobalScope === "undefined") {
  const { parentPort } = await import("node:worker_threads");
  parentPort.on("message", answerer((told) => parentPort.postMessage(told)));
} else {
  const answer = answerer((told) => postMessage(told));
  addEventListener("message", (event) => answer(event.data));
}

// Answers the lines of standard input, as the program does by one worker:
//
//     node run.js COMMAND [SCORING [EMPTIES]] < LINES
//
// COMMAND is solve, scores, moves, transcript, play or analyse; SCORING is winner (if not given) or discs; EMPTIES is where an analysis begins.
// Node 20 needs the option --experimental-wasm-memory64 before run.js.
import { readFileSync, writeSync } from "node:fs";
import { Solver, compile } from "./module.js";

const END = 10;
const [command, scoring = "winner", last = "20"] = process.argv.slice(2);
const solver = new Solver(await compile());
const input = readFileSync(0);

function write(bytes) {
  for (let at = 0; at < bytes.length; ) {
    at += writeSync(1, bytes, at);
  }
}

for (let number = 1, from = 0; from < input.length; number += 1) {
  const found = input.indexOf(END, from);
  const to = found < 0 ? input.length : found;
  const reply = solver.reply(command, input.subarray(from, to), { scoring: scoring === "discs" ? 1 : 0, number, last: Number(last) });
  write(Buffer.concat([reply, Uint8Array.of(END)]));
  from = to + 1;
}

// Calls of the JavaScript package, each with what it has to give. It prints "ok", or fails with the first call that gives something else.
import assert from "node:assert/strict";
import { Solver, compile } from "../examples/web/module.js";
import { Board, Kind, Refused, Scoring, Side, analyse, close, play, reply, scores, solve, solveAll, transcript } from "../examples/web/othsolve.js";

const LINE = "--OXOOO-OOOOOOOOOOOOOOOOOOOOOOOOOOOOOOOOOOOOOOOOOOOOOOOOOOOOOOOO X";
const START = "---------------------------OX------XO--------------------------- X";
const GAME = "f5f6c4f4g7b4f3h8e6f7e7d6c5f2c3d2b2a1g4e8g6b5e2g5a4d7e1b3a3e3g2c2h6f1b1h1f8h3h5g3h2d8g1a2d1c1c6b7c8h7h4a5d3";
const CALLS = 20_000;
// Bytes: what a process may have more after the second half of the calls, which a collector of garbage leaves to it.
const MOST_MORE = 32_000_000;
const refused = (code, place) => (error) => error instanceof Refused && error.code === code && error.place === place;

async function searches() {
  const board = Board.ofLine(`${LINE}\n`);
  const answer = await board.solve();
  assert.deepEqual([answer.score, answer.best, answer.kind, String(answer)], [-50, ["h1"], Kind.MOVE, "-50 h1"]);
  assert.deepEqual([...(await board.scores())], [["b1", -64], ["h1", -50]]);
  assert.deepEqual([...(await Board.ofTranscript(GAME).scores())], [["a6", -6], ["b6", 4], ["c7", 4], ["a8", 12], ["g8", 2]]);
  assert.equal(await reply("solve", "X"), "error 1");
  await assert.rejects(solve(START), refused(5, undefined));
  await assert.rejects(scores(`${LINE.slice(0, 9)}x${LINE.slice(10)}`), refused(12, 10));
  await assert.rejects(solve(LINE, { scoring: "black" }), RangeError);
}

function rules() {
  const start = Board.start();
  assert.equal(start.line(), START);
  assert.deepEqual([start.mover, start.empties, start.kind()], [Side.BLACK, 60, Kind.MOVE]);
  assert.deepEqual([start.own, start.opp], [0x810000000n, 0x1008000000n]);
  assert.deepEqual(start.moves(), ["d3", "c4", "f5", "e6"]);
  assert.deepEqual(start.flips("f5"), ["e5"]);
  assert.deepEqual(start.flips("a1"), []);
  assert.equal(start.play("f5").line(), transcript("f5").line());
  assert.equal(start.playGame("f5d6").line(), play(`${START} f5d6`).line());
  assert.throws(() => start.play("a1"), refused(3, undefined));
  assert.throws(() => start.passTurn(), RangeError);
  assert.throws(() => transcript("f5a1"), refused(23, 2));
  assert.throws(() => transcript("f5d"), refused(21, undefined));
  assert.throws(() => transcript("f5z9"), refused(22, 2));
  assert.throws(() => play(`${START} f5a1`), refused(23, 2));
  assert.throws(() => Board.ofLine("X"), refused(11, undefined));
  assert.throws(() => Board.ofLine(`${START.slice(0, 64)}X X`.slice(0, 66)), refused(13, undefined));
  assert.throws(() => Board.ofLine(`${START.slice(0, 65)}Z`), refused(14, undefined));
}

async function games() {
  const found = await analyse(`${GAME}z9`, { last: 9 });
  assert.deepEqual([found.turns.length, found.fault?.code, found.fault?.place], [3, 22, 54]);
  assert.deepEqual([found.lost.X, found.lost.O, found.turns[2].move], [0, 22, undefined]);
}

async function ended() {
  const hard = transcript("f5d6c3d3c4f4c5b3c2b4e3e6c6").line();
  await assert.rejects(solve(hard, { signal: AbortSignal.timeout(50) }), refused(5, undefined));
  const deep = Board.ofTranscript(GAME.slice(0, 68));
  const began = performance.now();
  await assert.rejects(deep.solve({ signal: AbortSignal.timeout(200) }), { name: "TimeoutError" });
  assert.ok(performance.now() - began < 5_000);
  await assert.rejects(deep.solve({ signal: AbortSignal.abort() }), { name: "AbortError" });
  assert.equal((await solve(LINE)).score, -50);
}

async function many() {
  const found = [];
  for await (const answer of solveAll([LINE, "X", LINE], { scoring: Scoring.DISCS, workers: 2 })) {
    found.push(answer);
  }
  assert.deepEqual(found.map((answer) => answer.code ?? answer.best), [["h1"], 11, ["h1"]]);
  for await (const answer of solveAll(Array(100).fill(LINE))) {
    assert.equal(answer.score, -50);
    break;
  }
}

async function memory() {
  const solver = new Solver(await compile());
  const line = new TextEncoder().encode(LINE);
  const call = () => solver.reply("scores", line, { scoring: 0 });
  call();
  const { size } = solver;
  for (let n = 0; n < CALLS; n += 1) {
    call();
  }
  assert.equal(solver.size, size);
  const asked = async () => {
    for (let n = 0; n < CALLS / 2; n += 1) {
      await solve(LINE);
    }
    return process.memoryUsage().rss;
  };
  const [half, all] = [await asked(), await asked()];
  assert.ok(all - half < MOST_MORE, `${all - half} more bytes after ${CALLS} calls`);
}

rules();
await searches();
await games();
await ended();
await many();
await memory();
close();
console.log("ok");

// Othello's rules, its proved solver and its texts for JavaScript, in Node and in a browser.
//
//     import { Board } from "othsolve";
//
//     const board = Board.ofLine("--OXOOO-OOOOOOOOOOOOOOOOOOOOOOOOOOOOOOOOOOOOOOOOOOOOOOOOOOOOOOOO X");
//     const answer = await board.solve();
//     console.log(answer.score, answer.best);
//
// Squares are names, "a1" to "h8". What is refused is a `Refused`. Searches run in workers, so whoever calls goes on meanwhile.
import { Crew, PROCESSORS } from "./crew.js";
import { Solver, Unsupported, compile, isSupported } from "./module.js";

export { Unsupported, isSupported };

/** A board with more empty squares is not solved. */
export const MOST_EMPTIES = 30;

/** What a finished game is worth: by WINNER the squares that stay empty go to the winner, by DISCS to nobody. */
export const Scoring = Object.freeze({ WINNER: "winner", DISCS: "discs" });

/** What the side to move does: it moves, it passes, or the game is over. */
export const Kind = Object.freeze({ MOVE: "move", PASS: "pass", END: "end" });

/** Black is X in a board line, White is O. */
export const Side = Object.freeze({ BLACK: "X", WHITE: "O" });

const WORDS = {
  3: "the move is illegal",
  5: "more than 30 squares are empty",
  11: "a board line has 66 bytes",
  12: "byte PLACE is none of 'X', 'O' and '-'; it is the leftmost such byte",
  13: "byte 65 is no space",
  14: "byte 66 is neither 'X' nor 'O'",
  21: "the number of bytes is odd",
  22: "pair PLACE is no letter from a to h and a digit from 1 to 8",
  23: "the move of pair PLACE is illegal",
  24: "the game is over before pair PLACE",
};
const ILLEGAL = 3;
const EMPTIES = 5;
// Added to the number of a fault: those of a board line are 11 to 14, those of moves 21 to 24.
const OF_LINE = 10;
const OF_MOVES = 20;
const MOST_LAST = 30;
const LAST = 20;

/** A text that is refused: `code` is the number of the refusal, as in othsolve.h, `place` the byte or the pair at fault, counted from 1. */
export class Refused extends Error {
  constructor(code, place) {
    super((WORDS[code] ?? `refusal ${code}`).replace("PLACE", String(place)));
    this.name = "Refused";
    this.code = code;
    this.place = place;
  }
}

const compiled = await compile();
const solver = new Solver(compiled);
const crew = new Crew(compiled, PROCESSORS);
const coder = new TextEncoder();
const decoder = new TextDecoder();

/** The value of a board for its side to move, -64 to 64, where both sides play best; all best moves; and what that side does. */
export class Answer {
  constructor(score, best, kind) {
    Object.assign(this, { score, best, kind });
    Object.freeze(this);
  }

  /** The report line, as `othsolve solve` writes it. */
  toString() {
    return `${signed(this.score)} ${this.best.join(" ") || this.kind}`;
  }
}

const signed = (score) => (score < 0 ? String(score) : `+${score}`);

/** The bytes of a line. A newline behind it is no part of it. */
function bytesOf(text) {
  if (typeof text !== "string") {
    throw new TypeError("a line is a string");
  }
  return coder.encode(text.endsWith("\n") ? text.slice(0, -1) : text);
}

/** The settings of a call, tested. */
function settingsOf({ scoring = Scoring.WINNER, number = 1, last = LAST } = {}) {
  if (scoring !== Scoring.WINNER && scoring !== Scoring.DISCS) {
    throw new RangeError(`${scoring} is no scoring: it is "winner" or "discs"`);
  }
  if (!Number.isSafeInteger(number) || number < 0) {
    throw new RangeError(`${number} is no number of a line`);
  }
  if (!Number.isInteger(last) || last < 1 || last > MOST_LAST) {
    throw new RangeError(`${last} is no number of empty squares: it is 1 to ${MOST_LAST}`);
  }
  return { scoring: scoring === Scoring.WINNER ? 0 : 1, number, last };
}

/** The fault that a reply tells, if it tells one. `ofMoves`: its numbers are those of moves. */
function faultOf(reply, ofMoves = false) {
  const found = /^error (\d+)(?: at (\d+)| (\d+))?$/.exec(reply);
  if (!found) {
    return undefined;
  }
  const number = Number(found[1]);
  const place = found[2] === undefined ? undefined : Number(found[2]);
  if (ofMoves) {
    return new Refused(OF_MOVES + number, place);
  }
  return new Refused(number === EMPTIES || number > OF_MOVES ? number : OF_LINE + number, place);
}

/** The reply, where it tells no fault. */
function checked(reply, ofMoves) {
  const fault = faultOf(reply, ofMoves);
  if (fault) {
    throw fault;
  }
  return reply;
}

/** The reply of a command that takes no time. */
const toldAtOnce = (command, text) => decoder.decode(solver.reply(command, bytesOf(text), settingsOf()));

/** The reply of a command that may search. It is sought by a worker; `signal` ends it. */
async function told(command, text, options) {
  return decoder.decode(await crew.ask(command, bytesOf(text), settingsOf(options), options?.signal));
}

function answerOf(reply) {
  const [score, ...words] = checked(reply).split(" ");
  const kind = words[0] === Kind.PASS || words[0] === Kind.END ? words[0] : Kind.MOVE;
  return new Answer(Number(score), Object.freeze(kind === Kind.MOVE ? words : []), kind);
}

const numberOf = (square) => 8 * (square.charCodeAt(1) - 49) + square.charCodeAt(0) - 97;

function scoresOf(reply) {
  const words = checked(reply).split(" ");
  const found = [];
  if (words[1] !== Kind.PASS && words[1] !== Kind.END) {
    for (let at = 0; at < words.length; at += 2) {
      found.push([words[at + 1], Number(words[at])]);
    }
  }
  return new Map(found.sort(([one], [other]) => numberOf(one) - numberOf(other)));
}

/** The line that the command writes of a line, faults too: what `othsolve COMMAND` writes, byte for byte. */
export async function reply(command, line, options) {
  return told(command, line, options);
}

/** The score and all best moves of the board of a board line, of at most 30 empty squares. */
export async function solve(line, options) {
  return answerOf(await told("solve", line, options));
}

/** The score of each legal move, rising: what the board after it is worth to the mover. Empty where the side passes or the game is over. */
export async function scores(line, options) {
  return scoresOf(await told("scores", line, options));
}

/** The legal moves of a board line, rising. There are none where the side passes or the game is over. */
export function moves(line) {
  return Board.ofLine(line).moves();
}

/** The board that a transcript leads to from the start of a game, as "f5d6c3". Forced passes are not written, and are put in. */
export function transcript(text) {
  return Board.ofTranscript(text);
}

/** The board that moves lead to from a board: a board line, alone or with a space and moves behind it. */
export function play(line) {
  return new Board(checked(toldAtOnce("play", line)));
}

function turnOf(words) {
  const [number, disc, mover, move, score, ...rest] = words;
  const answer = answerOf(rest.join(" "));
  return Object.freeze({
    number: Number(number),
    disc: Number(disc),
    mover,
    move: move === Kind.PASS ? undefined : move,
    score: Number(score),
    answer,
    lost: answer.score - Number(score),
  });
}

/**
 * What the turns of a game are worth, from `last` empty squares on (20 if not given, 30 at most), and what both sides lost by them. The game is a transcript, or
 * a board line with moves behind it. `fault` is that of a game that goes wrong; its turns up to there are told.
 */
export async function analyse(game, options) {
  const lines = (await told("analyse", game, options)).split("\n");
  const lost = lines.pop().split(" ");
  const begins = /^[XO-]/.test(game);
  let fault;
  const turns = [];
  for (const line of lines) {
    const rest = line.slice(line.indexOf(" ") + 1);
    if (rest.startsWith("error")) {
      fault = faultOf(rest, !begins);
    } else {
      turns.push(turnOf(line.split(" ")));
    }
  }
  return Object.freeze({ turns, fault, lost: Object.freeze({ X: Number(lost[3]), O: Number(lost[5]) }) });
}

/**
 * The answers of many board lines, in their order, as they are found by as many workers as there are processors. A line that is refused gives
 * its `Refused`. `signal` ends all of it.
 */
export async function* solveAll(lines, options = {}) {
  const most = options.workers ?? PROCESSORS;
  if (!Number.isInteger(most) || most < 1) {
    throw new RangeError(`${most} is no number of workers`);
  }
  const stop = new AbortController();
  const signal = options.signal ? AbortSignal.any([options.signal, stop.signal]) : stop.signal;
  const own = new Crew(compiled, most);
  const waiting = [];
  const asked = async (line) => answerOf(decoder.decode(await own.ask("solve", bytesOf(line), settingsOf(options), signal)));
  const settled = (line) =>
    asked(line).catch((error) => {
      if (error instanceof Refused) {
        return error;
      }
      throw error;
    });
  try {
    for await (const line of lines) {
      const answer = settled(line);
      // Heard again when its turn comes.
      answer.catch(() => {});
      waiting.push(answer);
      if (waiting.length >= 4 * most) {
        yield await waiting.shift();
      }
    }
    while (waiting.length > 0) {
      yield await waiting.shift();
    }
  } finally {
    stop.abort();
    own.close();
  }
}

const NAMES = Array.from({ length: 64 }, (_, n) => `${"abcdefgh"[n % 8]}${1 + (n >> 3)}`);
const other = (side) => (side === Side.BLACK ? Side.WHITE : Side.BLACK);

/** A board and who moves: its board line. */
export class Board {
  #line;

  /** Of a board line that was read. `Board.ofLine` reads one. */
  constructor(line) {
    this.#line = checked(toldAtOnce("moves", line)) && line;
    Object.freeze(this);
  }

  /** The start of a game. */
  static start() {
    return Board.ofTranscript("");
  }

  /** The board of a board line: 64 cells row by row from a1 (X, O or -), a space, and who moves. A newline may follow. */
  static ofLine(text) {
    return new Board(String(text).replace(/\n$/, ""));
  }

  /** The board that moves lead to from the start of a game, as "f5d6c3". Forced passes are not written, and are put in. */
  static ofTranscript(text) {
    return new Board(checked(toldAtOnce("transcript", text), true));
  }

  /** The board line. */
  line() {
    return this.#line;
  }

  /** Who moves: "X" or "O". */
  get mover() {
    return this.#line[65];
  }

  /** How many squares are empty. */
  get empties() {
    return this.#line.slice(0, 64).split("-").length - 1;
  }

  /** The mover's discs: bit n is square n, a1 is 0, h1 is 7, h8 is 63. */
  get own() {
    return this.#discs(this.mover);
  }

  /** The other side's discs. */
  get opp() {
    return this.#discs(other(this.mover));
  }

  #discs(side) {
    let word = 0n;
    for (let n = 0; n < 64; n++) {
      word |= this.#line[n] === side ? 1n << BigInt(n) : 0n;
    }
    return word;
  }

  /** The names of the legal moves with a space between them, or "pass", or "end". */
  movesLine() {
    return toldAtOnce("moves", this.#line);
  }

  /** The legal moves, rising. There are none where the side passes or the game is over. */
  moves() {
    const words = this.movesLine().split(" ");
    return words[0] === Kind.PASS || words[0] === Kind.END ? [] : words;
  }

  /** What the side to move does. */
  kind() {
    const line = this.movesLine();
    return line === Kind.PASS || line === Kind.END ? line : Kind.MOVE;
  }

  /** The discs that a move to the square flips: none exactly where it is illegal. */
  flips(square) {
    if (!NAMES.includes(square)) {
      throw new RangeError(`${square} is no square: it is a letter from a to h and a digit from 1 to 8`);
    }
    if (!this.moves().includes(square)) {
      return [];
    }
    const after = this.play(square).line();
    return NAMES.filter((name, n) => name !== square && after[n] !== this.#line[n]);
  }

  /** The board after a move to the square, as the other side sees it. An illegal move is refused. */
  play(square) {
    if (!this.moves().includes(square)) {
      throw new Refused(ILLEGAL);
    }
    // The cells show colours, so a pass that is put in changes only who moves.
    const after = checked(toldAtOnce("play", `${this.#line} ${square}`));
    return new Board(`${after.slice(0, 65)}${other(this.mover)}`);
  }

  /** The board that moves lead to from this one, as "f5d6c3". Forced passes, the first one too, are put in and not written. */
  playGame(text) {
    bytesOf(text);
    return play(`${this.#line} ${text}`);
  }

  /** The board after a pass. It is refused where the side has a move, or the game is over. */
  passTurn() {
    const kind = this.kind();
    if (kind !== Kind.PASS) {
      throw new RangeError(kind === Kind.MOVE ? "the side to move has a move" : "the game is over");
    }
    return new Board(`${this.#line.slice(0, 65)}${other(this.mover)}`);
  }

  /** The score, all best moves and the kind of a board of at most MOST_EMPTIES empty squares. */
  solve(options) {
    return solve(this.#line, options);
  }

  /** The score of each legal move, rising. */
  scores(options) {
    return scores(this.#line, options);
  }

  /** Eight rows, X black and O white, below the letters of the columns. */
  toString() {
    const rows = [1, 2, 3, 4, 5, 6, 7, 8].map((row) => `${row} ${[...this.#line.slice(8 * row - 8, 8 * row)].join(" ")}`);
    return ["  a b c d e f g h", ...rows].join("\n");
  }
}

/** Ends the workers that have nothing to do; a later call starts others. */
export function close() {
  crew.close();
}

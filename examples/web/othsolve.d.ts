/** Othello's rules, its proved solver and its texts. Squares are names, "a1" to "h8". */

/** A board with more empty squares is not solved. */
export declare const MOST_EMPTIES: 30;

/** By "winner" the squares that stay empty go to the winner, by "discs" to nobody. */
export type Scoring = "winner" | "discs";
export declare const Scoring: Readonly<{ WINNER: "winner"; DISCS: "discs" }>;

/** What the side to move does. */
export type Kind = "move" | "pass" | "end";
export declare const Kind: Readonly<{ MOVE: "move"; PASS: "pass"; END: "end" }>;

/** Black is X in a board line, White is O. */
export type Side = "X" | "O";
export declare const Side: Readonly<{ BLACK: "X"; WHITE: "O" }>;

export type Command = "solve" | "scores" | "moves" | "transcript" | "play" | "analyse";

/** A text that is refused: the number of the refusal in othsolve.h, and the byte or the pair at fault, counted from 1. */
export declare class Refused extends Error {
  constructor(code: number, place?: number);
  readonly code: number;
  readonly place: number | undefined;
}

/** WebAssembly with a 64-bit memory is missing. Then the import of this package is rejected. */
export declare class Unsupported extends Error {}
export declare function isSupported(): boolean;

export interface SearchOptions {
  /** "winner" if left out. */
  scoring?: Scoring;
  /** Ends the search: the call is rejected with the signal's reason. */
  signal?: AbortSignal;
}

export interface GameOptions extends SearchOptions {
  /** The game is analysed from this number of empty squares on, 1 to 30; 20 if left out. */
  last?: number;
  /** The number of the game's line; 1 if left out. */
  number?: number;
}

export interface AllOptions extends SearchOptions {
  /** As many as there are processors, if left out. */
  workers?: number;
}

/** The value of a board for its side to move, -64 to 64, where both sides play best; all best moves; and what that side does. */
export declare class Answer {
  constructor(score: number, best: readonly string[], kind: Kind);
  readonly score: number;
  readonly best: readonly string[];
  readonly kind: Kind;
  /** The report line, as `othsolve solve` writes it. */
  toString(): string;
}

export interface Turn {
  readonly number: number;
  /** The number of the disc: the first that is put is 1. */
  readonly disc: number;
  readonly mover: Side;
  /** None where the side passes. */
  readonly move: string | undefined;
  /** What the move is worth to its mover. */
  readonly score: number;
  /** What the board before it is worth. */
  readonly answer: Answer;
  /** The discs that the move is worth less than the best one. */
  readonly lost: number;
}

export interface Analysis {
  readonly turns: readonly Turn[];
  readonly fault: Refused | undefined;
  readonly lost: Readonly<Record<Side, number>>;
}

/** A board and who moves. */
export declare class Board {
  constructor(line: string);
  static start(): Board;
  static ofLine(text: string): Board;
  static ofTranscript(text: string): Board;
  line(): string;
  readonly mover: Side;
  readonly empties: number;
  readonly own: bigint;
  readonly opp: bigint;
  movesLine(): string;
  moves(): string[];
  kind(): Kind;
  flips(square: string): string[];
  play(square: string): Board;
  playGame(text: string): Board;
  passTurn(): Board;
  solve(options?: SearchOptions): Promise<Answer>;
  scores(options?: SearchOptions): Promise<Map<string, number>>;
  toString(): string;
}

/** What `othsolve COMMAND` writes of a line, faults too, without the newline behind it. */
export declare function reply(command: Command, line: string, options?: GameOptions): Promise<string>;
export declare function solve(line: string, options?: SearchOptions): Promise<Answer>;
export declare function scores(line: string, options?: SearchOptions): Promise<Map<string, number>>;
export declare function moves(line: string): string[];
export declare function transcript(text: string): Board;
export declare function play(line: string): Board;
export declare function analyse(game: string, options?: GameOptions): Promise<Analysis>;

/** The answers of many board lines in their order; of a line that is refused its `Refused`. */
export declare function solveAll(
  lines: Iterable<string> | AsyncIterable<string>,
  options?: AllOptions,
): AsyncGenerator<Answer | Refused, void, void>;

/** Ends the workers that have nothing to do; a later call starts others. */
export declare function close(): void;

"""Compares what the WebAssembly module of examples/web writes, in Node, with what the built program writes, and makes calls of the JavaScript
package around it. Where Node is missing, or has no 64-bit memory, or nobody has made the module, the step says so, and nothing is compared."""
import os
import random
import shutil
import subprocess

import minimax
from running import TOP, ran, text_of

SEED = 20261201
WEB = f"{TOP}/examples/web"
SCORINGS = ("winner", "discs")
BOARDS = 1500
MOST_EMPTIES = 8
LONGER = (10, 11, 12, 13, 14)
GAMES = 300
RANDOM_LINES = 20_000
PATIENCE = 600


def steps(program):
    """Yields a step for each command, scoring and kind of line, then one for the calls of the package."""
    node = node_words()
    if isinstance(node, str):
        yield f"the module in Node: left out, {node}", ""
        return
    kinds = {"worked lines": worked_lines(), "mixed lines with faults": mixed_lines(), "lines of random bytes": random_lines()}
    for name, lines in kinds.items():
        for command in ("moves", "transcript", "play"):
            yield f"{command}, {name}", difference(program, node, [command], [command], lines)
        for scoring in SCORINGS:
            for command in ("solve", "scores"):
                words = [command, "--scoring", scoring]
                yield f"{command} by {scoring}, {name}", difference(program, node, words, [command, scoring], lines)
            words = ["analyse", "--scoring", scoring, "--last", "8"]
            yield f"analyse by {scoring}, {name}", difference(program, node, words, ["analyse", scoring, "8"], lines)
    yield "calls of the package", wrong_calls(node)


def node_words():
    """Returns the words that begin a run of Node with a 64-bit memory, or why there is none."""
    node = shutil.which("node")
    if not node:
        return "Node is missing"
    if not os.path.exists(f"{WEB}/othsolve.wasm"):
        return "examples/web/build.py has not made the module"
    test = "process.exit(WebAssembly.validate(Uint8Array.of(0, 97, 115, 109, 1, 0, 0, 0, 5, 3, 1, 4, 1)) ? 0 : 1)"
    for words in ([node], [node, "--experimental-wasm-memory64"]):
        if subprocess.run([*words, "-e", test], stderr=subprocess.DEVNULL, check=False).returncode == 0:
            return words
    return "this Node has no 64-bit memory"


def difference(program, node, words, of_module, given):
    """Returns what is wrong with the module's replies to these bytes: the first line that isn't the program's."""
    wanted = ran([program, *words], given, PATIENCE)
    found = ran([*node, f"{WEB}/run.js", *of_module], given, PATIENCE)
    if wanted.status or found.status:
        return f"ended with {wanted.status} and {found.status}: {(wanted.said + found.said).decode(errors='replace')[-300:]}"
    if found.wrote == wanted.wrote:
        return ""
    pairs = enumerate(zip(wanted.wrote.split(b"\n"), found.wrote.split(b"\n"), strict=False), 1)
    for number, (one, other) in pairs:
        if one != other:
            return f"line {number} is {other!r}, wanted {one!r}"
    return f"{len(found.wrote)} bytes, wanted {len(wanted.wrote)}"


def worked_lines():
    """Returns the worked boards and games, and boards of some more empty squares."""
    text = b""
    for name in ("boards.txt", "games.txt"):
        with open(f"{TOP}/examples/{name}", "rb") as file:
            text += file.read()
    draw = random.Random(SEED)
    longer = [minimax.board_line(*minimax.game_board(draw, empties)) for empties in LONGER]
    return text + text_of(longer).encode()


def mixed_lines():
    """Returns lines of boards, of boards with moves behind them and of transcripts, half of which have a fault."""
    draw = random.Random(SEED + 1)
    lines = [minimax.board_line(*board) for board in minimax.boards(SEED + 1, BOARDS, MOST_EMPTIES)]
    lines += [f"{line} {moves_text(draw, draw.randrange(12))}" for line in lines[:GAMES]]
    with open(f"{TOP}/examples/games.txt", encoding="ascii") as file:
        games = file.read().split()
    lines += [draw.choice(games)[: 2 * draw.randrange(56, 61)] for _ in range(BOARDS - GAMES)]
    return b"\n".join(spoilt(draw, line.encode()) if draw.random() < 0.5 else line.encode() for line in lines)


def moves_text(draw, count):
    """Returns the names of as many squares."""
    return "".join(minimax.name(draw.randrange(64)) for _ in range(count))


def spoilt(draw, line):
    """Returns the line with a fault, or with something that is none."""
    at = draw.randrange(len(line) + 1)
    byte = bytes([draw.choice(b"XO- \rabc18\0\xff")])
    return draw.choice([line[:at], line[:at] + byte + line[at + 1 :], line[:at] + byte + line[at:], line + b"\r", line * 3, b""])


def random_lines():
    """Returns lines of any bytes, a few of them long."""
    draw = random.Random(SEED + 2)
    lines = [draw.randbytes(draw.choice((0, 1, 2, 66, 67, 120, 300))).replace(b"\n", b"X") for _ in range(RANDOM_LINES)]
    return b"\n".join([*lines, draw.randbytes(1_000_000).replace(b"\n", b"O")]) + b"\n"


def wrong_calls(node):
    """Returns what a program of calls, with what each has to give, says is wrong."""
    done = ran([*node, f"{TOP}/hostile/web_calls.js"], patience=PATIENCE)
    return "" if done.status == 0 and done.wrote == b"ok\n" else (done.wrote + done.said).decode(errors="replace")[-2000:]

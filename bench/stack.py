"""Prints the least stack, in KiB, with which `bits_cli check` answers texts that are as deep as the limits allow, or deeper.

The stack is what the system gives the program by its limit, below which the answer is another than with 64 MiB, by halving. So what the
system and the C library take for themselves is counted too. The first line is that of a text without depth.
Called by stack.sh with the path of the program.
"""
import pathlib
import resource
import subprocess
import sys
import tempfile

KIBIBYTE = 1024
AMPLE = 64 * KIBIBYTE
STEP = 4
BRACKETS = 64
TREE = 256
HEAD = "-module(m).\n-export([main/0]).\n"
OTHER = "f(X) -> X.\n"


def nested(depth, before, inner, after):
    return before * depth + inner + after * depth


def main(expression):
    return HEAD + f"main() -> {expression}.\n" + OTHER


def texts():
    yield "no depth", main("ok")
    yield "prefix operators", main(nested(TREE - 1, "- ", "1", ""))
    yield "operators to the left", main(nested(TREE - 1, "", "1", " + 1"))
    yield "operators to the right", main(nested(TREE - 1, "self() ! ", "1", ""))
    yield "andalso", main(nested(TREE - 1, "true andalso ", "true", ""))
    for name, before, after in (
        ("brackets", "(", ")"),
        ("tuples", "{", "}"),
        ("lists", "[", "]"),
        ("calls", "f(", ")"),
        ("case, bodies", "case 1 of 1 -> ", " end"),
        ("case, arguments", "case ", " of 1 -> 1 end"),
        ("if", "if true -> ", " end"),
        ("receive", "receive _ -> ", " end"),
        ("comprehensions, sources", "[1 || _ <- ", "]"),
        ("comprehensions, values", "[", " || _ <- []]"),
        ("bit comprehensions", "<< <<1>> || _ <- ", " >>"),
    ):
        yield name, main(nested(BRACKETS, before, "1", after))
        yield name + " and operators", main(nested(BRACKETS - 1, before + "self() ! " * 3, "1", after))
    yield "bit expressions", main(nested(BRACKETS, "<<", "1", "/bits>>"))
    yield "sizes", main(nested(BRACKETS // 2, "<<1:(", "1", ")>>"))
    yield "sizes and operators", main(nested(BRACKETS // 2 - 1, "<<1:(- - - - - ", "1", ")>>"))
    yield "guards", HEAD + f"main() when {nested(BRACKETS - 1, '{- - - ', '1', '}')} -> ok.\n"
    yield "patterns", HEAD + f"main() -> ok.\nf({nested(BRACKETS - 1, '{', '1', '}')}) -> ok.\n"
    yield "sizes of patterns", HEAD + f"main() -> ok.\nf(<<_:({nested(BRACKETS - 3, '(- - - ', '1', ')')})>>) -> ok.\n"
    for name, piece in (("brackets", "("), ("tuples", "{"), ("bit expressions", "<<"), ("prefix operators", "- "), ("operators", "1 + "), ("case", "case ")):
        yield name + ", too deep", HEAD + "main() -> " + piece * 100_000 + "1.\n"
    yield "a long list", main("[" + "1, " * 300_000 + "1]")
    yield "a long body", main("1, " * 300_000 + "1")
    yield "many functions", HEAD + "main() -> ok.\n" + "".join(f"f{n}() -> ok.\n" for n in range(40_000))


def answer(program, path, size):
    limit = size * KIBIBYTE
    run = subprocess.run(
        [program, "check", path],
        stdout=subprocess.PIPE,
        stderr=subprocess.DEVNULL,
        preexec_fn=lambda: resource.setrlimit(resource.RLIMIT_STACK, (limit, limit)),
    )
    return run.returncode, run.stdout.decode()


def least(program, path):
    wanted = answer(program, path, AMPLE)
    if wanted[0] not in (0, 1):
        sys.exit(f"stack.py: {path} ends with status {wanted[0]}")
    low, high = 0, AMPLE
    while high - low > STEP:
        middle = (low + high) // 2
        try:
            enough = answer(program, path, middle) == wanted
        except (OSError, subprocess.SubprocessError):
            enough = False
        low, high = (low, middle) if enough else (middle, high)
    return high, wanted[1].strip()


with tempfile.TemporaryDirectory() as folder:
    for name, text in texts():
        path = pathlib.Path(folder) / "m.erl"
        path.write_text(text)
        size, said = least(sys.argv[1], str(path))
        print(f"{size:6} KiB  {name}: {said}")

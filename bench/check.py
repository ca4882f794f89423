"""Times `bits_cli check` on modules that grow, and prints the time per byte against that of the smallest: 1 and below is linear.

The time is the processor's, of the program with its start, so that other work on the machine doesn't count. A run's time is
counted in hundredths of a second at least, which the shortest ones stay below: they are run again and again up to a tenth.
Called by check.sh with the path of the program.
"""
import os
import pathlib
import subprocess
import sys
import tempfile

KIBIBYTE = 1024
SIZES = (64 * KIBIBYTE, 256 * KIBIBYTE, 1024 * KIBIBYTE - 64)
LEAST_TIME = 0.1
LEAST_RUNS = 3
HEAD = "-module(m).\n-export([main/0]).\n"


def repeated(size, before, item, after):
    """The text with as many items, each made from its number, as its size allows."""
    left = size - len(before) - len(after)
    items = []
    while True:
        text = item(len(items))
        left -= len(text)
        if left < 0:
            return before + "".join(items) + after
        items.append(text)


def functions(size):
    return repeated(size, HEAD + "main() -> f0().\n", lambda n: f"f{n}() -> f{n // 2}().\n", "")


def listed(size):
    return repeated(size, HEAD + "main() -> [1", lambda n: f", {n}", "].\n")


def body(size):
    return repeated(size, HEAD + "main() -> 1", lambda n: f", {n}", ".\n")


def string(size):
    return repeated(size, HEAD + 'main() -> "', lambda n: "abcdefgh", '".\n')


def strings(size):
    return repeated(size, HEAD + 'main() -> ""', lambda n: ' "a"', ".\n")


def comments(size):
    return repeated(size, HEAD, lambda n: "% " + "a long comment " * 60 + "\n", "main() -> 1.\n")


def variables(size):
    return repeated(size, HEAD + "main() -> V = 1", lambda n: f", V{n} = " + (f"V{n - 1}" if n else "V"), ".\n")


# As deep as operators, cases, and tuples of a pattern may stand in one another here.
OPERATORS = 250
CASES = 63
TUPLES = 62


def behind_operators(size):
    """Names that get their values behind nested operators, each level of which has them all."""
    return repeated(size, HEAD + "main() -> " + "- " * OPERATORS + "case 1 of 1 -> 1", lambda n: f", N{n} = {n}", " end.\n")


def in_cases(size):
    """Names that get their values inside nested cases."""
    front = "".join(f"case {n} of C{n} -> " for n in range(CASES))
    return repeated(size, HEAD + "main() -> " + front + "1", lambda n: f", N{n} = {n}", " end" * CASES + ".\n")


def in_tuples(size):
    """Names inside nested tuples of one pattern."""
    return repeated(size, HEAD + "main() -> ok.\nf(" + "{" * TUPLES + "N", lambda n: f", N{n}", "}" * TUPLES + ") -> ok.\n")


def in_alternatives(size):
    """Clauses inside clauses, two by two: each innermost one gives ten names their values, and each level has all those below it."""
    def clauses(depth, first):
        if depth == 0:
            return ", ".join(f"N{first * 10 + n} = {n}" for n in range(10))
        return f"case 1 of 1 -> {clauses(depth - 1, 2 * first)}; _ -> {clauses(depth - 1, 2 * first + 1)} end"

    return HEAD + "main() -> " + clauses((size // 160).bit_length() - 1, 0) + ".\n"


KINDS = {
    "functions that call each other": functions,
    "one list of many expressions": listed,
    "one body of many expressions": body,
    "one long string": string,
    "one string in many pieces": strings,
    "long comments": comments,
    "one function with many variables": variables,
    "names behind nested operators": behind_operators,
    "names inside nested cases": in_cases,
    "names inside nested tuples of a pattern": in_tuples,
    "names inside nested alternatives": in_alternatives,
}


def spent_by(words):
    """The processor's time of a run, which has to end with status 0."""
    process = subprocess.Popen(words, stdout=subprocess.DEVNULL)
    _, status, used = os.wait4(process.pid, 0)
    process.returncode = os.waitstatus_to_exitcode(status)
    if process.returncode != 0:
        sys.exit(f"{' '.join(words)}: status {process.returncode}")
    return used.ru_utime + used.ru_stime


def seconds(program, source):
    """The mean time of as many runs as take a tenth of a second together, three at least."""
    total, runs = 0.0, 0
    while total < LEAST_TIME or runs < LEAST_RUNS:
        total += spent_by([program, "check", str(source)])
        runs += 1
    return total / runs


def main():
    program = sys.argv[1]
    with tempfile.TemporaryDirectory() as name:
        source = pathlib.Path(name) / "m.erl"
        for kind, module in KINDS.items():
            smallest = None
            for size in SIZES:
                text = module(size)
                source.write_text(text)
                spent = seconds(program, source) / len(text)
                smallest = smallest or spent
                print(f"{kind}, {len(text)} bytes: {spent / smallest:.2f} times the time per byte of the smallest", flush=True)


main()

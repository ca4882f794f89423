"""Times `bits_cli run`, `copy` and `load` on programs that grow, and prints the time against that of half as much work: 2 is linear.

The time is the processor's, of the program with its start, less that of a module that does nothing. A run's time is counted in
hundredths of a second at least, so the sizes are such that the shortest takes some of them. Called by run.sh with the path of the
program.
"""
import os
import pathlib
import subprocess
import sys
import tempfile

REDUCTIONS = "4000000"
LARGEST_LOAD = 100_000
HEAD = "-module(m).\n-export([main/0,echo/1,sink/2]).\n"
NOTHING = HEAD + "main() -> ok.\necho(_) -> ok.\nsink(_, _) -> ok.\n"
UNUSED_ECHO = "echo(_) -> ok.\n"
UNUSED_SINK = "sink(_, _) -> ok.\n"
UNUSED = UNUSED_ECHO + UNUSED_SINK


def calls(n):
    """A loop of calls, each the last thing that its function does."""
    return HEAD + UNUSED + f"main() -> loop({n}).\nloop(0) -> ok;\nloop(N) -> loop(N - 1).\n"


def recursion(n):
    """Calls whose result is wanted."""
    return HEAD + UNUSED + f"main() -> erlang:display(count({n})).\ncount(0) -> 0;\ncount(N) -> 1 + count(N - 1).\n"


def walk(n):
    """Bytes taken off the front of a bitstring, one by one."""
    return HEAD + UNUSED + (
        f"main() -> walk(<<0:({n} * 8)>>, 0).\n"
        "walk(<<X, Rest/binary>>, Sum) -> walk(Rest, Sum + X);\nwalk(<<>>, Sum) -> Sum.\n"
    )


def headers(n):
    """Headers built and taken apart."""
    return HEAD + UNUSED + (
        f"main() -> loop({n}, 0).\n"
        "loop(0, Sum) -> Sum;\n"
        "loop(N, Sum) -> loop(N - 1, Sum + fields(<<4:4, 5:4, 0, 28:16, N:16, 2:3, 0:13, 64, 17, 0:16, 10, 0, 0, 1, 1, 2, 3, 4>>)).\n"
        "fields(<<4:4, Words:4, _, Length:16, Id:16, _:3, _:13, Life, _, _:16, _:32, Data:(Length - 24)/binary>>) ->\n"
        "    Words + Length + Id + Life + byte_size(Data).\n"
    )


def items(n):
    """A list made by a comprehension, and gone over."""
    return HEAD + UNUSED + (
        f"main() -> sum([Byte || <<Byte>> <= <<0:({n} * 8)>>], 0).\n"
        "sum([X | Rest], Sum) -> sum(Rest, Sum + X);\nsum([], Sum) -> Sum.\n"
    )


def mailbox(n):
    """Messages to itself, and then each taken in its turn."""
    return HEAD + UNUSED + (
        f"main() -> send({n}), take({n}).\n"
        "send(0) -> ok;\nsend(N) -> self() ! N, send(N - 1).\n"
        "take(0) -> ok;\ntake(N) -> receive N -> take(N - 1) end.\n"
    )


def talk(n):
    """Messages to and fro between two processes."""
    return HEAD + UNUSED_SINK + (
        f"main() -> talk(spawn(m, echo, [self()]), {n}).\n"
        "talk(Other, 0) -> Other ! stop;\n"
        "talk(Other, N) -> Other ! <<N:32>>, receive <<N:32>> -> talk(Other, N - 1) end.\n"
        "echo(Other) -> receive stop -> ok; Message -> Other ! Message, echo(Other) end.\n"
    )


def processes(n):
    """A thousand processes, each of which gets so many messages."""
    return HEAD + UNUSED_ECHO + (
        f"main() -> Sinks = start(1000, {n}), rounds(Sinks, {n}), gather(1000).\n"
        "start(0, _) -> [];\nstart(K, N) -> [spawn(m, sink, [self(), N]) | start(K - 1, N)].\n"
        "rounds(_, 0) -> ok;\nrounds(Sinks, N) -> [Sink ! N || Sink <- Sinks], rounds(Sinks, N - 1).\n"
        "sink(Parent, 0) -> Parent ! done;\nsink(Parent, N) -> receive N -> sink(Parent, N - 1) end.\n"
        "gather(0) -> ok;\ngather(K) -> receive done -> gather(K - 1) end.\n"
    )


def passed_over(n):
    """A receive that waits while messages come that it doesn't take."""
    return HEAD + UNUSED_ECHO + (
        f"main() -> spawn(m, sink, [self(), {n}]), receive done -> ok end.\n"
        "sink(Parent, 0) -> Parent ! done;\nsink(Parent, N) -> Parent ! N, sink(Parent, N - 1).\n"
    )


def collected(n):
    """Bits that a comprehension collects, byte by byte."""
    return HEAD + UNUSED + f"main() -> << <<(Byte bxor 1)>> || <<Byte>> <= <<0:({n} * 8)>> >>.\n"


def displays(n):
    return HEAD + UNUSED + f"main() -> show({n}).\nshow(0) -> ok;\nshow(N) -> erlang:display({{shown, N}}), show(N - 1).\n"


KINDS = {
    "a loop of calls": (calls, 500_000),
    "a recursion that isn't last": (recursion, 250_000),
    "bytes off the front of a bitstring": (walk, 250_000),
    "headers built and taken apart": (headers, 20_000),
    "the items of a list": (items, 250_000),
    "messages of a process to itself": (mailbox, 100_000),
    "messages between two processes": (talk, 100_000),
    "a thousand processes' messages": (processes, 100),
    "messages that a receive passes over": (passed_over, 4_000),
    "bits collected by a comprehension": (collected, 65_536),
    "displays": (displays, 100_000),
}


def spent_by(words, folder):
    """The processor's time of a run in the folder, which has to end with status 0, and each process of the module normally."""
    with tempfile.TemporaryFile() as report:
        process = subprocess.Popen(words, cwd=folder, stdout=report)
        _, status, used = os.wait4(process.pid, 0)
        process.returncode = os.waitstatus_to_exitcode(status)
        report.seek(0)
        ends = [line.decode().strip() for line in report if line.startswith((b"exit ", b"waiting "))]
    if process.returncode != 0 or ends:
        sys.exit(f"{' '.join(words)}: status {process.returncode} {' '.join(ends)}")
    return used.ru_utime + used.ru_stime


def compare(kind, name, largest, timed):
    """Prints the times of each size, of which each is twice the one before it, against those of the one before it."""
    before = None
    for size in (largest // 4, largest // 2, largest):
        ran, copied = timed(size)
        if before:
            print(f"{kind}, {size}: {name} {ran / before[0]:.2f}, copy {copied / before[1]:.2f} times the time of half as many", flush=True)
        before = (ran, copied)


def main():
    program = sys.argv[1]
    with tempfile.TemporaryDirectory() as folder:
        source = pathlib.Path(folder) / "m.erl"
        run = [program, "run", "m.erl", "m.order", "1", REDUCTIONS]
        copy = [program, "copy", "m.erl", "m.order", REDUCTIONS]
        copy_of_load = [program, "copy", "m.erl", "load.order", REDUCTIONS]

        def seconds(words):
            return min(spent_by(words, folder) for _ in range(3))

        source.write_text(NOTHING)
        start = seconds(run)

        def longer(words):
            return max(seconds(words) - start, 0.001)

        def load(size):
            source.write_bytes(subprocess.run([program, "gen", "1", str(size)], capture_output=True, check=True).stdout)
            return longer([program, "load", "1", str(size), "1"]), longer(copy_of_load)

        for kind, (program_of, largest) in KINDS.items():
            def both(size, program_of=program_of):
                source.write_text(program_of(size))
                return longer(run), longer(copy)

            compare(kind, "run", largest, both)
        compare("the generated module", "load", LARGEST_LOAD, load)


main()

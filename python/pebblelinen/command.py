# SPDX-FileCopyrightText: 2026 The PPVM Authors
# SPDX-License-Identifier: Apache-2.0
"""The command: a model file in, answers out, for people, as JSON or as CSV.

Exit status: 0 answered, 1 refused by the library, 2 bad usage (options, file, words that cannot be read), 3 a check
whose curve does not hold, 130 a run that was interrupted."""
import argparse
import csv
import math
import os
import signal
import sys
from collections.abc import Callable, Iterator, Sequence
from functools import partial
from typing import Any, NoReturn

from . import _given, _output, demo, modelfile, plotcommand, runcommand
from ._files import write_whole
from ._given import counted
from ._printing import (
    SHOWN,
    Answers,
    Rows,
    aligned,
    error_answer,
    json_number,
    largest_answer,
    listed_lines,
    loaded,
    loaded_with_basis,
    more_lines,
    print_json,
    terms_answer,
)
from ._progress import working
from ._version import __version__
from .basis import Basis
from .check import Checked
from .errors import InputError, PebblelinenError, Refusal
from .model import Degree
from .terms import Terms
from .words import Word, qubits

_ABOUT = """\
How noise moves an observable of a quantum device: the adjoint Lindblad generator on Pauli words.

  pebblelinen demo                            a chain of 256 qubits, in a few seconds
  pebblelinen demo --model > chain.toml       the same device as a model file, to change
  pebblelinen action chain.toml "Z128"        what the device does to Z on qubit 128
  pebblelinen leakage chain.toml --max-basis 100
  pebblelinen generator chain.toml
  pebblelinen generator chain.toml --matrix-market chain.mtx
  pebblelinen degree chain.toml --dt 0.1
  pebblelinen evolve chain.toml --dt 0.1      the coefficients after one time step
""" + runcommand.ABOUT + "\n" + plotcommand.ABOUT + """

Every command has its own --help. A qubit is a site of the device, a position is a place in the basis; both
are counted from 0, and no line says one for the other."""

_WORDS = """\
A word is given by site, "X12 Z40" for X on qubit 12 and Z on qubit 40 (the identity is "I0"), or as a text
with a letter for each qubit, qubit 0 first."""

_FILE = "A model file:\n" + modelfile.__doc__.split("\n", 1)[1]


def run() -> NoReturn:
    """The command as a process. An interrupt ends it at once, also in the library, and so does a reader of its
    lines that has gone."""
    signal.signal(signal.SIGINT, signal.SIG_DFL)
    signal.signal(signal.SIGPIPE, signal.SIG_DFL)
    sys.exit(main())


def main(arguments: Sequence[str] | None = None) -> int:
    """Runs the command with these arguments, or those of the process, and returns its exit status."""
    options = _parser().parse_args(_joined(sys.argv[1:] if arguments is None else arguments))
    options.warnings, options.status = [], 0
    try:
        answer, lines, rows = options.run(options)
        if options.json:
            print_json({**answer(), "warnings": options.warnings} if options.warnings else answer())
        elif options.csv:
            csv.writer(sys.stdout, lineterminator="\n").writerows(rows())
        else:
            for line in lines():
                print(line, flush=True)
    except (PebblelinenError, MemoryError) as error:
        print(f"pebblelinen: {error}", file=sys.stderr)
        if options.json:
            print_json({"error": error_answer(error)})
        return 1 if isinstance(error, Refusal) else 2
    return int(options.status)


def _joined(arguments: Sequence[str]) -> list[str]:
    """The arguments, with --dt -1e-3 as --dt=-1e-3 and --state -i as --state=-i: argparse takes a number below 0 with an
    exponent, and such a state, for an option."""
    joined: list[str] = []
    for argument in arguments:
        if joined and joined[-1].startswith("--") and argument.startswith("-") and _is_value(joined[-1], argument):
            argument = f"{joined.pop()}={argument}"
        joined.append(argument)
    return joined


def _is_value(option: str, text: str) -> bool:
    """Whether a text that begins with - is the value of an option, and not another."""
    if option == "--state":
        return not text.startswith("--")
    try:
        float(text)
    except ValueError:
        return False
    return True


def _parser() -> argparse.ArgumentParser:
    parser = argparse.ArgumentParser(
        prog="pebblelinen", description=_ABOUT, formatter_class=argparse.RawDescriptionHelpFormatter
    )
    parser.add_argument("--version", action="version", version=f"pebblelinen {__version__}")
    commands = parser.add_subparsers(title="commands", metavar="COMMAND", required=True)

    def command(
        name: str, run: Callable[[argparse.Namespace], Answers], help_: str, about: str, file: bool = True
    ) -> argparse.ArgumentParser:
        made = commands.add_parser(
            name,
            help=help_,
            description=about,
            epilog=_FILE if file else None,
            formatter_class=argparse.RawDescriptionHelpFormatter,
        )
        made.set_defaults(run=run)
        if name in ("run", "check"):
            about_files = "a model file, in TOML; several go into one figure"
            made.add_argument("files", nargs="+", metavar="FILE", help=about_files)
        elif file:
            made.add_argument("file", metavar="FILE", help="a model file, in TOML")
        form = made.add_mutually_exclusive_group()
        form.add_argument("--json", action="store_true", help="answer as JSON, numbers in full")
        form.add_argument("--csv", action="store_true", help="answer as a table in CSV, numbers in full")
        if name not in ("degree", "demo"):
            made.add_argument("--all", action="store_true", help=f"show more than {SHOWN} lines")
        return made

    made = command(
        "demo",
        _demo,
        "a chain of 256 qubits: an action, a growing basis, a degree",
        "Shows what the library does on a chain of 256 qubits with couplings, fields, decay and\n"
        "dephasing: the action on an observable; rounds in which the words that leak out of a basis are\n"
        "admitted to it and its coefficients are evolved by a time step; at the end the norm and degree of\n"
        "the generator. With --plot or --out it goes on to a curve, the expectation of the observable, and to what\n"
        "`check` says of it.",
        file=False,
    )
    made.add_argument("--rounds", type=int, default=6, metavar="R", help="rounds (default 6)")
    made.add_argument("--limit", type=int, default=4096, metavar="N", help="most words (default 4096)")
    made.add_argument("--dt", type=float, default=0.05, metavar="T", help="time step (default 0.05)")
    made.add_argument("--model", action="store_true", help="print the device as a model file instead")
    made.add_argument("--save", metavar="OUT", help="write it to the file OUT, where none stands there")
    _output.add_options(made)

    made = command(
        "action",
        _action,
        "what the model does to a word",
        "What the model does to each word, in the Heisenberg picture: the words with their numbers, in\n"
        "word order.\n\n" + _WORDS,
    )
    made.add_argument("words", nargs="*", metavar="WORD", help="default: the words of the file's basis")

    made = command(
        "leakage",
        _leakage,
        "what the model moves out of the basis",
        "What the model moves out of the file's basis, onto words neither in it nor protected: the\n"
        "largest that there is room for, with their sums, in word order. The room is said, and where it is\n"
        "full, so that others may leak too: without room nothing is listed, whatever leaks.",
    )
    made.add_argument(
        "--max-basis", type=int, required=True, metavar="N", help="room is what N leaves beside the basis"
    )
    made.add_argument("--admit-basis", type=int, metavar="N", help="counts instead where it is larger")
    made.add_argument("--tau-add", type=float, metavar="X", help="list sums above X (default 2^-40)")

    made = command(
        "generator",
        _generator,
        "the model over the basis, as a sparse matrix",
        "The model over the file's basis, as a sparse matrix whose rows and columns are positions. Entries\n"
        "stand by column, then by word. With --matrix-market they are written to a file for other tools, in\n"
        "the form `coordinate integer general`: rows and columns are then counted from 1, and values are\n"
        "whole counts of 2^-32, the nearest, halves away from zero. The file is written whole or not at all.",
    )
    made.add_argument("--matrix-market", metavar="OUT", help="write it to the file OUT, as Matrix Market")

    made = command(
        "degree",
        _degree,
        "norm of the generator, and how to compute its exponential",
        "The norm of the generator over the file's basis, and how the exponential of dt times it is to be\n"
        "computed: s stages of m products each. A dt that asks for more than 1,048,576 products, a mistyped\n"
        "one most likely, is refused, with the largest that does not.",
    )
    _add_step(made)

    made = command(
        "evolve",
        _evolve,
        "the coefficients of the basis after one time step",
        "The coefficients of the file's basis after one time step: the exponential of dt times the generator over\n"
        "the basis, on the coefficients given. Words stay as they are: what the model moves out of the basis is\n"
        "lost, so give the basis what `leakage` lists. A dt that asks for more than 1,048,576 products, a\n"
        "mistyped one most likely, is refused, with the largest that does not. With --save the model is written\n"
        "to a file with the evolved basis, to go on from.",
    )
    _add_step(made)
    made.add_argument("--save", metavar="OUT", help="write a model file with the evolved basis to OUT")
    runcommand.add(command)
    plotcommand.add(partial(command, file=False))
    return parser


def _add_step(made: argparse.ArgumentParser) -> None:
    """A time step, and how accurate it is to be."""
    made.add_argument("--dt", type=float, required=True, metavar="T", help="the time step")
    made.add_argument(
        "--drop-tol", type=float, default=0.0, metavar="X", help="from 1e-4 on fewer products will do"
    )


# ---- commands ----


def _action(options: argparse.Namespace) -> Answers:
    file = loaded(options)
    model = file.model
    words = [Word(word, n=model.n) for word in options.words] or [entry.word for entry in file.basis]
    if not words:
        raise InputError("name a word, or give the file a basis", where=options.file)

    def act() -> Iterator[tuple[Word, Terms]]:
        for word in words:
            with working(f"action on {word.by_site}"):
                terms = model.action(word)
            yield word, terms

    def answer() -> dict[str, Any]:
        actions = [{"word": word.by_site, "terms": terms_answer(terms)} for word, terms in act()]
        return {"qubits": model.n, "actions": actions}

    def lines() -> Iterator[str]:
        yield str(model)
        for word, terms in act():
            yield ""
            yield f"action on {word.by_site}: {counted(len(terms), 'word')}"
            yield from listed_lines(terms, options.all)

    def rows() -> Rows:
        yield "observable", "word", "value"
        for word, terms in act():
            for listed, value in terms:
                yield word.by_site, listed.by_site, repr(value)

    return answer, lines, rows


def _leakage(options: argparse.Namespace) -> Answers:
    file = loaded_with_basis(options)
    with working(f"leakage out of {len(file.basis)} entries"):
        terms = file.model.leakage(
            file.basis,
            max_basis=options.max_basis,
            admit_basis=options.admit_basis,
            tau_add=options.tau_add,
            protected=file.protected,
        )

    def summary() -> str:
        if not len(terms):
            return f"leakage: {terms.why_empty()}"
        full = "; the room is full, and others may leak too" if terms.full else ""
        return f"leakage: {counted(len(terms), 'word')}, largest {terms.largest()!r}{full}"

    def answer() -> dict[str, Any]:
        return {
            "qubits": file.model.n,
            "room": terms.room,
            "full": terms.full,
            "largest": largest_answer(terms.largest()),
            "terms": terms_answer(terms),
        }

    def lines() -> Iterator[str]:
        yield str(file.model)
        protected = f", {counted(len(file.protected), 'protected word')}" if file.protected else ""
        room = f"room for {counted(terms.room, 'word')} more"
        yield f"basis: {counted(len(file.basis), 'position')}{protected}; {room}"
        yield ""
        yield summary()
        if len(terms):
            yield from listed_lines(terms, options.all)

    def rows() -> Rows:
        # A table has no place to say that it is not all.
        if terms.full or not len(terms):
            print(f"pebblelinen: {summary()}", file=sys.stderr)
        yield "word", "value"
        for word, value in terms:
            yield word.by_site, repr(value)

    return answer, lines, rows


def _generator(options: argparse.Namespace) -> Answers:
    file = loaded_with_basis(options)
    if options.matrix_market is not None:
        return _matrix_market(options, file)
    with working(f"generator over {len(file.basis)} entries"):
        matrix = file.model.generator(file.basis)
    entries = list(zip(matrix.row.tolist(), matrix.col.tolist(), matrix.data.tolist()))
    words = [entry.word.by_site for entry in file.basis]

    def answer() -> dict[str, Any]:
        named = [{"row": row, "column": column, "value": value} for row, column, value in entries]
        return {"qubits": file.model.n, "basis": words, "entries": named}

    def lines() -> Iterator[str]:
        yield str(file.model)
        yield ""
        yield (
            f"generator over {counted(len(words), 'position')}:"
            f" {counted(len(entries), 'entry', 'entries')}, by column, then by word"
        )
        shown = [
            (f"position {row}: {words[row]}", f"position {column}: {words[column]}", repr(value))
            for row, column, value in (entries if options.all else entries[:SHOWN])
        ]
        yield from aligned([("row", "column", "value"), *shown])
        yield from more_lines(len(entries), options.all)

    def rows() -> Rows:
        yield "row", "column", "value", "row word", "column word"
        for row, column, value in entries:
            yield row, column, repr(value), words[row], words[column]

    return answer, lines, rows


def _matrix_market(options: argparse.Namespace, file: modelfile.ModelFile) -> Answers:
    out: str = options.matrix_market
    if options.csv:
        raise InputError("--matrix-market writes the entries to a file: there is no table of them for --csv")
    with working(f"generator over {len(file.basis)} entries"):
        text = file.model.matrix_market(file.basis)
    write_whole(out, text)
    # After two lines each entry has one.
    entries = text.count(b"\n") - 2

    def answer() -> dict[str, Any]:
        words = [entry.word.by_site for entry in file.basis]
        return {"qubits": file.model.n, "basis": words, "matrix_market": out, "count": entries, "bytes": len(text)}

    def lines() -> Iterator[str]:
        yield str(file.model)
        yield ""
        yield (
            f"generator over {counted(len(file.basis), 'position')}:"
            f" {counted(entries, 'entry', 'entries')}, by column, then by word"
        )
        yield f"written to {out} as Matrix Market, values in counts of 2^-32"

    return answer, lines, list


def _degree(options: argparse.Namespace) -> Answers:
    file = loaded_with_basis(options)
    with working(f"norm over {len(file.basis)} entries"):
        degree = file.model.degree(file.basis, dt=options.dt, drop_tol=options.drop_tol)

    def answer() -> dict[str, Any]:
        return {"qubits": file.model.n, "positions": len(file.basis), **_degree_answer(degree)}

    def lines() -> Iterator[str]:
        yield str(file.model)
        yield from _degree_lines(len(file.basis), options.dt, degree)

    def rows() -> Rows:
        yield "dt", *degree._fields
        yield map(repr, (options.dt, *degree))

    return answer, lines, rows


def _degree_answer(degree: Degree) -> dict[str, Any]:
    return {name: json_number(x) for name, x in degree._asdict().items()}


def _degree_lines(positions: int, dt: float, degree: Degree) -> Iterator[str]:
    yield f"generator over {counted(positions, 'position')}:"
    yield from aligned(
        [
            ("norm", repr(degree.norm)),
            ("mu", f"{degree.mu!r} (mean of the diagonal)"),
            ("degree", f"m = {degree.m}, s = {degree.s} for dt = {dt!r}: {degree.m * degree.s} products"),
        ]
    )


def _evolve(options: argparse.Namespace) -> Answers:
    file = loaded_with_basis(options)
    with working(f"evolution of {len(file.basis)} entries"):
        basis, products = file.model.evolve(file.basis, dt=options.dt, drop_tol=options.drop_tol)
    if options.save is not None:
        modelfile.save(options.save, file.model, basis, file.protected)
    # Position, word, coefficient before and after.
    entries = [(int(p), word.by_site, before, after) for (p, word, before), (*_, after) in zip(file.basis, basis)]

    def answer() -> dict[str, Any]:
        named = [{"word": word, "before": before, "coefficient": after} for _, word, before, after in entries]
        saved = {} if options.save is None else {"saved": options.save}
        return {"qubits": file.model.n, "products": products, "entries": named, **saved}

    def lines() -> Iterator[str]:
        yield str(file.model)
        yield ""
        yield (
            f"{counted(len(entries), 'position')} after the time step dt = {options.dt!r}:"
            f" {counted(products, 'product')} with the generator"
        )
        shown = [
            (f"position {p}: {word}", repr(before), repr(after))
            for p, word, before, after in (entries if options.all else entries[:SHOWN])
        ]
        yield from aligned([("word", "before", "coefficient"), *shown])
        yield from more_lines(len(entries), options.all)
        if options.save is not None:
            yield f"written to {options.save} with the evolved basis"

    def rows() -> Rows:
        yield "position", "word", "before", "coefficient"
        for p, word, before, after in entries:
            yield p, word, repr(before), repr(after)

    return answer, lines, rows


def _demo(options: argparse.Namespace) -> Answers:
    if options.model:
        if options.csv:
            raise InputError("--model prints a model file: there is no table of it for --csv")
        return lambda: {"model": demo.as_file()}, lambda: [demo.as_file().rstrip("\n")], list
    count = _given.whole(options.rounds, "--rounds")
    _output.look_ahead(options)
    with working("building the model"):
        model = demo.chain()
    if options.save is not None and not os.path.exists(options.save):
        write_whole(options.save, demo.as_file().encode())
    basis = Basis(model.n, {demo.OBSERVABLE: 1.0})

    def rounds() -> Iterator[demo.Round]:
        grown = demo.rounds(model, basis, limit=options.limit, count=count, dt=options.dt)
        for number in range(1, count + 1):
            with working(f"round {number}"):
                each = next(grown)
            yield each

    def degree() -> Degree:
        return model.degree(basis, dt=options.dt)

    def decay() -> Checked:
        checked = demo.decay(model)
        _output.write(options, [("demo", {checked.curve.name: checked})])
        return checked

    def answer() -> dict[str, Any]:
        action = terms_answer(model.action(demo.OBSERVABLE))
        done = [
            {**each._asdict(), "largest_leakage": largest_answer(each.largest_leakage)} for each in rounds()
        ]
        return {
            "qubits": model.n,
            "observable": demo.OBSERVABLE,
            "action": action,
            "rounds": done,
            **_degree_answer(degree()),
            **({"decay": runcommand.check_answer(decay())} if options.plot or options.out else {}),
            **_output.answer(options),
        }

    def lines() -> Iterator[str]:
        yield f"a chain of {qubits(model.n)} with couplings, fields, decay and dephasing"
        yield str(model)
        yield ""
        yield f"action on the observable, Z on qubit {demo.SITE}:"
        yield from listed_lines(model.action(demo.OBSERVABLE), True)
        yield ""
        yield f"a basis grows around it: at most {options.limit} words, time step {options.dt!r}"
        yield "  round  leaked  largest leakage  words  products  seconds"
        for each in rounds():
            no_room = math.isnan(each.largest_leakage)
            largest = "no room" if no_room else f"{each.largest_leakage:.6f}"
            yield (
                f"  {each.number:5}  {each.leaked:6}  {largest:>15}  {each.words:5}"
                f"  {each.products:8}  {each.seconds:7.3f}"
            )
        yield ""
        yield "the largest entries of the basis, by position:"
        for entry in sorted(basis, key=lambda entry: -abs(entry.coefficient))[:5]:
            yield f"  {entry.position}: {entry.word.by_site}, coefficient {entry.coefficient:.6f}"
        touching = len(basis.touching(qubit=demo.SITE))
        yield f"words at {touching} of {len(basis)} positions have a letter on qubit {demo.SITE}"
        yield ""
        yield from _degree_lines(len(basis), options.dt, degree())
        if options.plot or options.out:
            yield ""
            yield from _decay_lines(options, decay)

    def rows() -> Rows:
        yield demo.Round._fields
        for each in rounds():
            yield map(repr, each)

    return answer, lines, rows


def _decay_lines(options: argparse.Namespace, decay: Callable[[], Checked]) -> Iterator[str]:
    """The curve of the demonstration, for people: not at all of its times."""
    yield f"the expectation of {demo.OBSERVABLE}, where qubit {demo.SITE} starts in 0 and all others fully mixed:"
    checked = decay()
    columns = checked.curve.times, checked.curve.values, checked.half_step.values, checked.double_room.values
    rows = [(f"{time:g}", *(f"{x:.6f}" for x in row)) for time, *row in zip(*(each[::4].tolist() for each in columns))]
    yield from aligned([("time", "value", "half the step", "twice the room"), *rows])
    yield checked.says
    yield from _output.lines(options)
    if options.save is not None and options.out:
        program = "./pebblelinen" if os.path.exists("pebblelinen") else "pebblelinen"
        yield ""
        yield f"The device is in {options.save}. Change a rate there, and see both curves in one figure:"
        yield f"  {program} run {options.save} --beside {options.out[0]} --plot both.png"

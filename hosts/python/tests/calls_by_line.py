#!/usr/bin/env python3
"""Makes calls by the package, for the differential test: a call in a line of standard input, its answer in a line of standard output.

A line is the call's name and its arguments, r and the bytes that are read, w and those that may be written, n and a number; bytes are hexadecimal. The
answer is the sixteen numbers and every buffer that may be written. Each call is made a second time by `Table` or `Names` where they can make it, and
what these say is held to the numbers and the bytes. A difference is told on standard error, and so is a call that they never made; the status at the end
is then 1.
"""

import sys
import traceback
from itertools import accumulate
from pathlib import Path

sys.path.insert(0, str(Path(__file__).resolve().parent.parent))

import tickdrizzle
from tickdrizzle import MORE, Names, Refusal, Side, Table

# Questions about buffers, which Table and Names make themselves.
BUFFERS = {6, 9, 27, 28, 61, 62, 70, 80}
# The maps of a walk up to which a later one is looked for.
MOST_MAPS = 50
KINDS = {"embedding": Table.embeddings, "isomorphism": Table.isomorphisms, "reversed_isomorphism": Table.reversed_isomorphisms}
WITHIN = {
    "embedding": Table.embedding_within,
    "isomorphism": Table.isomorphism_within,
    "reversed_isomorphism": Table.reversed_isomorphism_within,
}


class OtherQuestions(Exception):
    """The call cannot be made, or is refused by a question that only Table or only the call asks."""


def sided(side, cells, order):
    """A table of a call with two, whose refusal names its side."""
    try:
        return Table.from_cells(cells, order)
    except Refusal as refusal:
        raise Refusal(refusal.number, refusal.place, side) from None


def unless(numbers, make):
    """What is made; these questions are asked by Table, and not by the call."""
    try:
        return make()
    except Refusal as refusal:
        if refusal.number in numbers:
            raise OtherQuestions from None
        raise


def second_time(name, arguments):
    """What Table or Names say of the call: the values of the answer, and what stands in front of its buffers."""
    if name in ("check_table", "check_generated", "index_period", "profile", "subsemigroup", "least_degree"):
        return of_one_table(name, *arguments)
    if name == "check_map":
        cells, order, others, size, images = arguments
        check = sided(Side.SOURCE, cells, order).check_map(sided(Side.TARGET, others, size), images)
        return [int(check.outcome), *check.elements], []
    if name == "transformations":
        table = Table.transformations(arguments[0])
        return [table.order], [table.cells]
    if name == "load":
        table = unless((3, 4), lambda: Table.from_csv(arguments[0]))
        return [table.order], [table.cells]
    if name == "save":
        table = unless((4,), lambda: Table.from_cells(*arguments[:2]))
        return [len(table.to_csv())], [table.to_csv()]
    if name == "load_names":
        names = Names.from_csv(arguments[0])
        return [len(names)], ["".join(names).encode(), bytes(len(name) for name in names)]
    if name == "save_names":
        sheet = Names(pieces(*arguments[:2])).to_csv()
        return [len(sheet)], [sheet]
    return of_two_tables(name, arguments)


def pieces(names, lengths):
    """The names that stand one after another; only ASCII is the same in a string."""
    if sum(lengths) > len(names) or any(byte > 127 for byte in names):
        raise OtherQuestions
    return [names[end - length : end].decode() for end, length in zip(accumulate(lengths), lengths)]


def of_one_table(name, cells, order, *more):
    if name == "check_generated":
        Table.generated(cells, order, more[0])
        return [], []
    table = Table.from_cells(cells, order)
    if name == "index_period":
        powers = table.index_period(more[0])
        return [powers.index, powers.period, powers.idempotent], []
    if name == "profile":
        p = table.profile(more[0])
        return [p.index, p.period, p.idempotent, p.frequency, p.diagonal, p.row, p.column, p.commuting], []
    if name == "subsemigroup":
        part = table.part(more[0])
        return [part.table.order], [part.table.cells, bytes(part.elements)]
    if name == "least_degree":
        positions = table.positions()
        return [table.degree() or 0], [b"".join(map(bytes, positions or ()))]
    return [], []


def of_two_tables(name, arguments):
    cells, order, others, size, *more = arguments
    source, target = sided(Side.SOURCE, cells, order), sided(Side.TARGET, others, size)
    if name == "copies":
        copies = source.copies(target)
        return ([1], []) if copies is MORE else ([0, copies], [])
    asked, kind = name.split("_", 1)
    pairs = [more.pop(0)] if kind.endswith("_among") else []
    if len(more[0]) != source.order:
        raise OtherQuestions
    if kind.endswith("_within"):
        said = WITHIN[kind[: -len("_within")]](source, target, more[2])
        return [int(said.outcome), *([] if said.trials is None else [said.trials])], [bytes(said.map or ())]
    found = among(source, target, *pairs) if pairs else KINDS[kind](source, target)
    images = earliest(found, more[0] if asked == "next" else None)
    return [int(images is not None)], [images or b""]


def earliest(maps, after):
    """The first map of a walk, or the first that is later than a list, unless too many come before it."""
    for passed, images in enumerate(map(bytes, maps)):
        if after is None or images > after:
            return images
        if passed == MOST_MAPS:
            raise OtherQuestions
    return None


def among(source, target, pairs):
    """The embeddings among the pairs of a call, which may be too few bytes."""
    if len(pairs) < tickdrizzle.scratch_size(source.order, target.order):
        raise OtherQuestions

    def allowed(i, j):
        place, bit = divmod((i - 1) * target.order + j - 1, 8)
        return pairs[place] >> bit & 1

    return source.embeddings_among(target, allowed)


def agrees(name, arguments, answer, buffers):
    """Whether Table or Names say the same; None where they cannot be asked."""
    try:
        values, fronts = second_time(name, arguments)
        said = [0, 0, *values]
    except OtherQuestions:
        return None
    except Refusal as refusal:
        said, fronts = [refusal.number, refusal.side or 0, *refusal.place], []
    except Exception:
        traceback.print_exc()
        return False
    if answer[0] in BUFFERS:
        return None
    return said + [0] * (16 - len(said)) == list(answer) and all(
        bytes(buffer[: len(front)]) == front for front, buffer in zip(fronts, buffers)
    )


def argument(word):
    kind, rest = word[0], word[1:]
    return int(rest) if kind == "n" else bytes.fromhex(rest) if kind == "r" else bytearray.fromhex(rest)


def main():
    differences, never_made = 0, set(tickdrizzle._CALLS)
    for line in sys.stdin:
        name, *words = line.split()
        arguments = [argument(word) for word in words]
        before = [bytes(lent) if isinstance(lent, bytearray) else lent for lent in arguments]
        answer = tickdrizzle._call(name, *arguments)
        buffers = [lent for lent in arguments if isinstance(lent, bytearray)]
        print(*answer, *(f"w{buffer.hex()}" for buffer in buffers), flush=True)
        agreed = agrees(name, before, answer, buffers)
        if agreed is not None:
            never_made.discard(name)
        if agreed is False:
            differences += 1
            print(f"Table or Names differ: {line.strip()}\n  the call says {answer}", file=sys.stderr)
    if never_made:
        print(f"Table and Names never made: {', '.join(sorted(never_made))}", file=sys.stderr)
    return 1 if differences or never_made else 0


if __name__ == "__main__":
    sys.exit(main())

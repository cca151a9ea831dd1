"""The command dowelbrook: its subcommands, their arguments and their help."""

from __future__ import annotations

import argparse
import os
import re
import shlex
import shutil
import signal
import sys
import traceback
from typing import Any, Callable, NamedTuple, Sequence

from . import actions
from .inputs import STANDARD_INPUT, said
from .numbers import LEAST_MODULUS, MOST_MODULUS
from .refusals import Refusal, Singular
from .rings import MOST_WORD
from .tables import DELIMITERS
from .typed import InputError, factors_of, number_of
from .version import __version__

DESCRIPTION = """\
Takes apart the readings of loggers round a tank: patterns, readings and counts are rings of n whole numbers
below a modulus. What is refused is told in words, with its number; `explain` says more about a number."""

NEVER_REFUSED = "status: 0 done, 2 wrong usage or unreadable input"
NEVER_SINGULAR = f"{NEVER_REFUSED}, 3 refused"
STATUS = f"{NEVER_SINGULAR}, 4 singular"

RINGS = """\
A RING is a list of numbers such as 1,2,0, or a file that holds a pattern sheet or its text form (see `make`):
then it is the file's pattern, and the modulus is the file's. A file of numbers is a list too. - is standard
input, and ./12 a file that is named like a number."""

RINGS_AND_READINGS = """\
A RING is a list of numbers such as 1,2,0. A file that holds a pattern sheet or its text form (see `make`)
stands for its pattern and, if it has them, its readings, and the modulus is the file's. A file of numbers is a
list too. - is standard input, and ./12 a file that is named like a number."""

TABLES = """\
With --logger the argument is a table of records, and so is what is printed: a row of counts for each record,
in order, with a column that is empty or says in words what was refused. The table of loggers has a name, the
modulus and the pattern's weights in a row; the table of records an id, a logger's name and the readings. Both
have a header line, with names above the numbers, and comma, semicolon or tab between cells. A row for fewer
feeders has fewer cells. A cell that is empty or no whole number, or an unknown logger, is an error that names
line and column and ends the run; the rows before it are printed. Weights, readings and counts are told from 0,
as feeders are; lines and columns from 1. The status is that of the first record that was refused, or 0."""

TEXT_FORM = """\
Makes a sheet from options, or from the text form, which has a line for each field:

    # Commas or blanks stand between numbers; brackets around a list are allowed, and 5 is 5^1.
    version 1
    modulus 10
    factors 2^1 5^1
    pattern 1 2 0
    readings 1 2 5

Fields come in the order of the lines. The version is 1 unless it is given; the factors are worked out
from the modulus unless they are given; readings may be left out.

No value is judged, so that wrong sheets can be made too, but a warning tells that a sheet will be refused.
Two more lines serve only wrong sheets:

    without factors     leaves out a field that every sheet must have
    bytes 07 0001 FF    puts these bytes, in hex, as they are"""

SHOWING = """\
Shows a sheet field by field. A sheet that the program unmix would refuse is said to be refused, and why."""


class Parser(argparse.ArgumentParser):
    """Takes no abbreviated options, and shows its texts as they are."""

    def __init__(self, **settings: Any) -> None:
        super().__init__(formatter_class=argparse.RawDescriptionHelpFormatter, allow_abbrev=False, **settings)


def as_option(read: Callable[[str], Any]) -> Callable[[str], Any]:
    """A reader of typed values, whose errors argparse tells."""

    def option(text: str) -> Any:
        try:
            return read(text)
        except InputError as error:
            raise argparse.ArgumentTypeError(str(error)) from None

    return option


WHOLE = as_option(lambda text: number_of(text, MOST_WORD))
FACTOR_LIST = as_option(factors_of)
MODULI = f"from {LEAST_MODULUS} to {MOST_MODULUS:,}"


def add_rings(parser: Parser, with_factors: bool) -> None:
    parser.add_argument("rings", nargs="+", metavar="RING")
    parser.add_argument("--modulus", metavar="M", type=WHOLE, help=MODULI)
    if with_factors:
        told = "such as 2^1,5^1; unless given, the sheet's, or worked out"
        parser.add_argument("--factors", metavar="LIST", type=FACTOR_LIST, help=told)


def add_make(parser: Parser) -> None:
    parser.add_argument("file", nargs="?", metavar="FILE", help="the text form; - is standard input")
    for field in actions.FIELD_OPTIONS:
        parser.add_argument(field.option, dest=field.line, metavar=field.metavar, help=field.help)
    parser.add_argument("--hex", action="store_true", help="write hex, a line for each field")


def add_show(parser: Parser) -> None:
    parser.add_argument("file", nargs="?", default=STANDARD_INPUT, metavar="FILE", help="standard input unless given")
    parser.add_argument("--hex", action="store_true", help="the sheet is given in hex")
    parser.add_argument("--text", action="store_true", help="show it in the text form that make takes")


def add_unmix(parser: Parser) -> None:
    add_rings(parser, with_factors=True)
    parser.add_argument("--logger", metavar="FILE", help="the table of loggers; RING is then a table of records")
    told = "comma, semicolon or tab; unless given, the header line tells"
    parser.add_argument("--delimiter", choices=DELIMITERS, metavar="NAME", help=told)


def add_reduce(parser: Parser) -> None:
    add_rings(parser, with_factors=False)
    parser.add_argument("--divisor", metavar="D", type=WHOLE, required=True, help="a divisor of the modulus")


def add_fold(parser: Parser) -> None:
    add_rings(parser, with_factors=False)
    parser.add_argument("--onto", metavar="N", type=WHOLE, required=True, help="a divisor of the ring's length")


def add_explain(parser: Parser) -> None:
    parser.add_argument("number", nargs="?", metavar="NUMBER", help="or a name; all are listed unless one is given")


class Command(NamedTuple):
    """A subcommand: what does it, its own arguments, and its help with an example that works as typed."""

    run: Callable[[argparse.Namespace], int]
    add: Callable[[Parser], object]
    summary: str
    description: str
    example: str
    status: str = STATUS


COMMANDS = {
    "make": Command(
        actions.make,
        add_make,
        "make a pattern sheet from numbers",
        TEXT_FORM,
        """\
    $ %(prog)s --modulus 10 --pattern 1,2,0 --readings 1,2,5 --hex
    01 0001 01
    02 0004 0000000A
    03 000A 00000002 01 00000005 01
    04 000C 00000001 00000002 00000000
    05 000C 00000001 00000002 00000005""",
        f"{NEVER_REFUSED}; a warning changes nothing",
    ),
    "show": Command(
        actions.show,
        add_show,
        "show a sheet field by field, and what it would be refused for",
        SHOWING,
        """\
    $ printf 'modulus 10\\npattern 1 2 0\\nreadings 1 12 5\\n' | %(prog)s
    offset  tag  field     length  value
         0    1  version        1  1
         4    2  modulus        4  10
        11    3  factors       10  2^1 5^1
        24    4  pattern       12  1 2 0
        39    5  readings      12  1 12 5
        54  end
    refused 6: reading 1 is 12, not below the modulus 10""",
        f"{NEVER_SINGULAR}",
    ),
    "unmix": Command(
        actions.unmix,
        add_unmix,
        "the counts behind readings, of one logger or of a whole table",
        f"Prints the counts behind readings heard through a pattern: two RINGs, the pattern and the readings.\n\n"
        f"{RINGS_AND_READINGS}\n\n{TABLES}",
        """\
    $ %(prog)s --modulus 10 1,2,0 1,2,5
    1 0 5

    $ printf 'name,m,w0,w1,w2\\nnorth,10,1,2,0\\n' > loggers.csv
    $ printf 'id,logger,r0,r1,r2\\n7,north,1,2,5\\n8,north,1,12,5\\n' > records.csv
    $ %(prog)s --logger loggers.csv records.csv
    id,logger,refused,count 0,count 1,count 2
    7,north,,1,0,5
    8,north,"refused 6: reading 1 of line 3 is 12, not below the modulus 10",,,""",
    ),
    "invert": Command(
        actions.invert,
        lambda parser: add_rings(parser, with_factors=True),
        "the inverse of a pattern",
        f"Prints the inverse of a pattern. Where there is none, it tells the ghost: counts heard as nothing.\n\n"
        f"{RINGS}",
        """\
    $ %(prog)s --modulus 10 1,2,0
    9 2 6""",
    ),
    "mix": Command(
        actions.mix,
        lambda parser: add_rings(parser, with_factors=False),
        "the readings of counts through a pattern",
        f"Prints the product of two RINGs: what a logger with the first as its pattern reads of the second.\n\n{RINGS}",
        """\
    $ %(prog)s --modulus 10 1,2,0 1,0,5
    1 2 5""",
        NEVER_SINGULAR,
    ),
    "reduce": Command(
        actions.reduce,
        add_reduce,
        "each entry's remainder by a divisor of the modulus",
        f"Prints the remainder of each entry of a RING by a divisor of the modulus.\n\n{RINGS}",
        """\
    $ %(prog)s --modulus 8 --divisor 4 5,6
    1 2""",
        NEVER_SINGULAR,
    ),
    "fold": Command(
        actions.fold,
        add_fold,
        "a ring folded onto a smaller one",
        f"Prints N sums modulo the modulus: entry k is that of the entries of a RING whose place is k modulo N.\n\n"
        f"{RINGS}",
        """\
    $ %(prog)s --modulus 10 --onto 2 1,2,3,4
    4 6""",
        NEVER_SINGULAR,
    ),
    "same": Command(
        actions.same,
        lambda parser: add_rings(parser, with_factors=True),
        "whether two readings are of one feeding",
        f"Prints yes or no: whether the same counts, at least one of which is not zero, are behind readings heard\n"
        f"through two patterns. An idle tank, in which every count is zero, is no feeding: then the answer is no, even\n"
        f"for a tank with itself. Four RINGs, pattern and readings of the one and of the other, or two files.\n\n"
        f"{RINGS_AND_READINGS}",
        """\
    $ %(prog)s --modulus 8 1,2 3,2 3,2 1,2
    yes""",
        "status: 0 yes, 1 no, 2 wrong usage or unreadable input, 3 refused, 4 singular",
    ),
    "factor": Command(
        actions.factor,
        lambda parser: parser.add_argument("m", metavar="M", type=WHOLE, help=MODULI),
        "the factor list of a modulus",
        "Prints the factor list of a modulus: its primes, rising, with their exponents.",
        """\
    $ %(prog)s 12
    2^2 3^1""",
        NEVER_SINGULAR,
    ),
    "explain": Command(
        actions.explain,
        add_explain,
        "what a number means, what it tells and what to do",
        "Tells the meaning of a number with which a call answers, what comes with it and what to do.",
        """\
    $ %(prog)s 1
    1 EMPTY: ring 1 has no entry.
    What to do: Give at least one entry; a ring has as many as the tank has feeders.""",
        NEVER_REFUSED,
    ),
}


EXAMPLE = """\
    $ %(prog)s unmix --modulus 10 1,2,0 1,2,5
    1 0 5"""

MORE = f"""\
example:
{EXAMPLE}

`%(prog)s COMMAND --help` tells more.

{STATUS}
        same: 0 yes, 1 no; and for a fault of its own 70"""


def typed_name() -> str:
    """What a person types to get here."""
    typed = sys.argv[0]
    if typed.endswith("__main__.py"):
        return "python3 -m dowelbrook"
    name = os.path.basename(typed)
    return shlex.quote(name if shutil.which(name) == typed else typed)


def command_line() -> Parser:
    parser = Parser(prog=typed_name(), description=DESCRIPTION, epilog=MORE)
    parser.add_argument("--version", action="version", version=f"dowelbrook {__version__}", help="tell the version")
    subcommands = parser.add_subparsers(metavar="COMMAND", required=True, parser_class=Parser)
    for name, command in COMMANDS.items():
        epilog = f"example:\n{command.example}\n\n{command.status}"
        added = subcommands.add_parser(name, help=command.summary, description=command.description, epilog=epilog)
        added.set_defaults(run=command.run)
        command.add(added)
    return parser


def is_option(argument: str) -> bool:
    return argument.startswith("-") and argument != STANDARD_INPUT


def parsed(arguments: Sequence[str]) -> argparse.Namespace:
    """What was typed. argparse leaves over a RING that comes after an option that comes after a RING."""
    parser = command_line()
    for argument in arguments:
        if re.match("-[0-9]", argument):
            parser.error(f"{argument}: no number here is below 0")
    given, left_over = parser.parse_known_args(arguments)
    if left_over and (not hasattr(given, "rings") or any(map(is_option, left_over))):
        parser.error(f"unrecognized arguments: {' '.join(left_over)}")
    if left_over:
        given.rings += left_over
    return given


def run(arguments: Sequence[str]) -> int:
    try:
        given = parsed(arguments)
    except SystemExit as end:
        # argparse has told the help, the version or what is wrong.
        return int(end.code or actions.DONE)
    return int(given.run(given))


def status_of(arguments: Sequence[str]) -> int:
    """Runs the command, and tells in words what went wrong."""
    try:
        return run(arguments)
    except Singular as singular:
        actions.say(str(singular))
        if singular.ghost is not None:
            actions.say(f"counts that are heard as nothing: {' '.join(map(str, singular.ghost))}")
        return actions.NO_INVERSE
    except Refusal as refusal:
        actions.say(str(refusal))
        return actions.REFUSED
    except InputError as error:
        actions.say(str(error))
        return actions.UNUSABLE
    except OSError as error:
        actions.say(_told_by(error))
        return actions.UNUSABLE
    except KeyboardInterrupt:
        return 128 + signal.SIGINT
    except Exception:
        traceback.print_exc()
        return actions.FAULT


def _told_by(error: OSError) -> str:
    if error.strerror is None:
        return str(error)
    return f"{'reading or writing' if error.filename is None else said(error.filename)}: {error.strerror}"


def main(arguments: Sequence[str] | None = None) -> int:
    """The command; what it returns is the status that the shell gets."""
    signal.signal(signal.SIGPIPE, signal.SIG_DFL)
    if sys.stderr is None:
        sys.stderr = open(os.devnull, "w")
    if sys.stdout is None:
        actions.say("standard output is closed")
        return actions.UNUSABLE
    status = status_of(sys.argv[1:] if arguments is None else arguments)
    try:
        sys.stdout.flush()
        return status
    except OSError as error:
        if status != actions.UNUSABLE:
            actions.say(_told_by(error))
        # What could not be written would be tried again at the end, with a status of Python's own.
        os.dup2(os.open(os.devnull, os.O_WRONLY), sys.stdout.fileno())
        return actions.UNUSABLE

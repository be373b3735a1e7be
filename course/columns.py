"""The counts of a program for several values of its constants, side by side before its lines: from these an author finds the times in square brackets."""
import csv
import io
import itertools
import re
from xml.sax.saxutils import escape

from counting import RUN, TRANSFERS, instruction_of, time_of, times_of
from running import Bundle, Outcome, Refused, console_replies, replies_of

ESCAPED = {"\\": r"\textbackslash{}", "~": r"\textasciitilde{}", "^": r"\textasciicircum{}", **{one: "\\" + one for one in "&%$#_{}"}}
# Shows a letter that the encoding of pdfTeX lacks by that of T1, from there on, and one that this lacks too as ?. Other engines know all letters.
ANY_SCRIPT = (r"\providecommand\anyscript[1]{{\ttfamily\def\TextSymbolUnavailable{\def\TextSymbolUnavailable####1{?}\fontencoding{T1}\selectfont}"
              r"\expandafter\def\csname UTFviii@undefined@err\endcsname##1{?}#1}}")
RANGE = re.compile(r"(.*?=)(\d+)\.\.(\d+)(?:/([1-9]\d*))?(|,.*)")


class NoColumns(Exception):
    """Why there are none: a setting that is none, a source that is refused, a program that does not halt."""


def settings_of(word):
    """The settings of a word: itself, or those of a range, as N=4, N=8 and N=12 of `N=4..12/4`."""
    found = RANGE.fullmatch(word)
    if not found:
        return [word]
    before, first, last, step, after = found.groups()
    numbers = range(int(first), int(last) + 1, int(step or 1))
    if not numbers:
        raise NoColumns(f"{word} has no values: write the smaller one first")
    return [setting for number in numbers for setting in settings_of(f"{before}{number}{after}")]


def constants_of(setting):
    """The names and values of a setting, such as `N=4` or `N=4,M=2`."""
    pairs = [pair.partition("=") for pair in setting.split(",")]
    if not all(name and sign and value for name, sign, value in pairs):
        raise NoColumns(f"{setting} is no setting: write NAME=VALUE, or NAME=VALUE,NAME=VALUE")
    return {name: value for name, _, value in pairs}


class Counted:
    """A run of a program with the constants of a setting, to its halt."""

    def __init__(self, program, text, setting, script=RUN, replies=replies_of):
        bundle = Bundle(text)
        self.lines, self.heads, self.constants = list(bundle.source), [setting], constants_of(setting)
        for name, value in self.constants.items():
            try:
                bundle.set_constants({name: value})
            except ValueError:
                raise NoColumns(f"{setting}: the source has not one line {name} EQU") from None
        bundle.script = script
        try:
            self.ran = Outcome(bundle, list(replies(program, bundle)))
        except Refused as refusal:
            raise NoColumns(f"{setting}: {refusal}") from None
        if self.ran.end != "halt":
            raise NoColumns(f"{setting}: the program does not halt: {self.ran.end} after {self.ran.steps} steps, at location {self.ran.location:04d}")
        self.counts, self.steps, self.clock = self.ran.counts(), [self.ran.steps], [self.ran.clock]

    def cells(self, number):
        """How often a line is executed."""
        return [self.counts.get(number, (0, 0))[0]]


def table(runs):
    """The heads, and the rows: a line, and its cells for each run; at last the steps and the clocks."""
    joined = lambda of: list(itertools.chain(*map(of, runs)))
    rows = [(runs[0].lines[number - 1], joined(lambda ran: ran.cells(number))) for number in sorted({*joined(lambda ran: ran.counts)})]
    return joined(lambda ran: ran.heads), [*rows, ("steps", joined(lambda ran: ran.steps)), ("clock", joined(lambda ran: ran.clock))]


def as_text(heads, rows):
    """The lines of a table. What belongs to a setting has its name once."""
    heads = [head.removeprefix(before).strip() if head.startswith(f"{before} ") else head for before, head in zip(["", *heads], heads)]
    widths = [max(6, len(head)) for head in heads]
    table = [" ".join(f"{head:>{width}}" for head, width in zip(heads, widths))]
    return table + [f"{' '.join(f'{cell:>{width}}' for cell, width in zip(cells, widths))}  {line}".rstrip() for line, cells in rows]


def as_csv(heads, rows):
    """The same as comma-separated values, the line last; a spreadsheet takes one that it could work out for a text."""
    out = io.StringIO()
    writer = csv.writer(out, lineterminator="\n")
    writer.writerow([*heads, "line"])
    writer.writerows([*cells, re.sub("^(?=[=+@\t-])", "'", line)] for line, cells in rows)
    return out.getvalue().split("\n")[:-1]


def as_latex(heads, rows):
    """The same as a tabular of LaTeX, the line first; blanks in it are kept. Letters that the fonts of pdflatex lack become ?."""

    def typeset(line):
        letters = "".join("~" if one == " " else ESCAPED.get(one, one) for one in re.sub("[\0-\x1f\x7f-\x9f]", "?", line.expandtabs()))
        return re.sub("(?<=[-<>,'`?!])(?=[-<>,'`])", "{}", letters)  # of two letters a font may make another one, as of ?`

    body = [f"\\{'texttt' if line.isascii() else 'anyscript'}{{{typeset(line)}}} & {' & '.join(map(str, cells))} \\\\" for line, cells in rows]
    head = f" & {' & '.join(map(typeset, heads))} \\\\ \\hline"
    table = [f"\\begin{{tabular}}{{l{'r' * len(heads)}}}", head, *body[:-2], r"\hline", *body[-2:], r"\end{tabular}"]
    return table if all(line.isascii() for line, _ in rows) else [ANY_SCRIPT, *table]


ROW = re.compile(r" *\d+ +(?:(-?\d+)|(\S+)) +(?:ok|no|gave|\?) +(\d+)  .*")
WHY = {"?": "has a name without a value", "unread": "cannot be read", "large": "has no value within 64 bits"}


class Compared(Counted):
    """A run with the values of the formulas, each a number or one of WHY, and the sum of the times by them, which is a number or `?`."""

    def __init__(self, program, text, setting):
        constants = constants_of(setting)
        for name, value in constants.items():
            if not re.fullmatch(r"-?\d+", value):
                raise NoColumns(f"{setting}: {value} is no number, as the value of {name} in a formula has to be")
        asked = " ".join(["show analysis", *map("=".join, constants.items())])
        super().__init__(program, text, setting, [*RUN, asked], console_replies)
        rows = [row for row in map(ROW.fullmatch, self.ran.lines(asked)) if row]
        if not rows:
            raise NoColumns(f"{setting}: no line of an instruction has a formula in square brackets")
        self.values = {int(number): other or int(value) for value, other, number in map(re.Match.groups, rows)}
        self.sum = "?" if any(value in WHY for value in self.values.values()) else sum(map(self.time, self.values))
        self.heads, self.steps, self.clock = [setting, f"{setting} formula"], [*self.steps, ""], [*self.clock, marked(self.sum, *self.clock)]

    def time(self, number):
        """The time of a line by its formula. An execution takes the mean of all, but a transfer does not wait."""
        (count, took), (name, _) = self.counts[number], instruction_of(self.lines[number - 1])
        return self.values[number] * (count * time_of(name) if name in TRANSFERS else took) // count if count else 0

    def cells(self, number):
        """How often a line is executed, and the value of its formula."""
        (count,) = super().cells(number)
        return [count, marked(self.values.get(number, ""), count)]

    def wrong(self):
        """Each line whose formula does not fit, and why."""
        for number, value in self.values.items():
            count, _ = self.counts[number]
            if value != count:
                why = WHY.get(value, f"is {value}, but the line is executed {count} {'time' if count == 1 else 'times'}")
                yield number, f"{self.heads[0]}: [{times_of(self.lines[number - 1])}] {why}"


def marked(value, count):
    """A value, with a mark if it is a number and not the count."""
    return f"{value}*" if value not in WHY and value not in ("", count) else value


def wrong(runs):
    """The lines whose formulas do not fit, each with what the first such run says of it."""
    return sorted(dict(found for ran in reversed(runs) for found in ran.wrong()).items())


WIDE, HIGH, LEFT, RIGHT, TOP, FOOT = 640, 400, 72, 616, 64, 352
# Inside a page the picture takes the page's colour; alone it has one for each scheme.
STYLE = "svg:root { color: #222; background: #fff } @media (prefers-color-scheme: dark) { svg:root { color: #ddd; background: #222 } }"


def scale(values, begin, end):
    """The places of numbers from the least value to the greatest, and at most seven round numbers among them."""
    low, high = min(values), max(values)
    step = next(digit * 10**power for power in itertools.count() for digit in (1, 2, 5) if high - low <= 6 * digit * 10**power)
    return lambda value: round(begin + (end - begin) * (value - low) / max(high - low, 1), 1), range(-(-low // step) * step, high + 1, step)


def varying(runs):
    """The constant of which the runs have several values, or the first, and the values of the others."""
    values = {name: {ran.constants.get(name) for ran in runs} for ran in runs for name in ran.constants}
    name, *more = [name for name, found in values.items() if len(found) > 1] or values
    others = {one: value for one, value in runs[0].constants.items() if one != name}
    if None in values[name] or any(len(values[one]) > 1 for one in more):
        raise NoColumns("a curve is over one constant: give each run a value of it, and of the others the same values")
    return name, others


def label(x, y, text, anchor="middle", size=12):
    return f'<text x="{x}" y="{y}" text-anchor="{anchor}" font-size="{size}">{escape(text)}</text>'


def curve(title, runs):
    """The lines of the picture."""
    name, others = varying(runs)
    title = ", ".join([title, *map("=".join, others.items())])
    points = sorted((int(ran.constants[name]), ran.clock[0], ran.sum) for ran in runs)
    sums = [(n, total) for n, _, total in points if total != "?"]
    across, columns = scale([n for n, _, _ in points], LEFT, RIGHT)
    up, rows = scale([0, *(clock for _, clock, _ in points), *(total for _, total in sums)], FOOT, TOP)
    told = "; ".join(f"{name}={n}: {clock} u, by the formulas {total}" for n, clock, total in points)
    size = f'viewBox="0 0 {WIDE} {HIGH}" width="{WIDE}" height="{HIGH}"'
    yield f'<svg xmlns="http://www.w3.org/2000/svg" {size} fill="currentColor" role="img" aria-labelledby="curve-title curve-desc" font-family="sans-serif">'
    yield f'<title id="curve-title">{escape(title)}</title>'
    yield f'<desc id="curve-desc">{escape(told)}</desc>'
    yield f"<style>{STYLE}</style>"
    yield label(WIDE // 2, 24, title, size=16)
    yield label(WIDE // 2, 44, "line: the sum by the formulas; dots: the clock")
    yield label(LEFT - 10, TOP - 12, "u", "end")
    yield label(RIGHT, FOOT + 38, name, "end")
    for n in columns:
        yield f'<path d="M {across(n)} {FOOT} v 6" stroke="currentColor"/>' + label(across(n), FOOT + 20, str(n))
    for time in rows:
        yield f'<path d="M {LEFT} {up(time)} h -6" stroke="currentColor"/>' + label(LEFT - 10, up(time) + 4, str(time), "end")
    yield f'<path d="M {LEFT} {TOP} V {FOOT} H {RIGHT}" fill="none" stroke="currentColor"/>'
    line = " ".join(f"{across(n)},{up(total)}" for n, total in sums)
    yield f'<polyline points="{line}" fill="none" stroke="currentColor" stroke-width="1.5"/>'
    yield from (f'<circle cx="{across(n)}" cy="{up(clock)}" r="3"/>' for n, clock, _ in points)
    yield "</svg>"

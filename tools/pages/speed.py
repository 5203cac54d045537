"""What is made of a recorded measurement: tables, parts of README.md and docs/SPEED.md, and the README's chart."""
import math
import os
import re
from collections import defaultdict, namedtuple
from statistics import geometric_mean

from pages.chart import draw, drawn_of, sum_of
from pages.sources import read

# The record has where it is from, and then lines as tools/speed/main.rs prints them. The ratios are those of RIVALS.
RECORD, CHART = "docs/speed.tsv", "docs/speed-six.svg"
README, SPEED = "README.md", "docs/SPEED.md"
# What is compared with the Rust crate, in the order of the driver's ratios.
RIVALS = ["this library", "the same layout in `unsafe` Rust", "`IndexMap`", "`HashMap`"]
# The workloads on numbers that have panels in the chart.
PANELS = ["get, hit", "get, miss", "overwrite", "remove and put back", "walk", "clone"]
# What to take in place of this library: the rivals, which have lines in the chart and columns in the README and in SPEED.md, and
# SPEED.md's capacities and its workloads on numbers.
CHOICES, CHOICE_CAPACITIES = [2, 3], [2, 8, 32]
CHOICE_WORDS = {
    "get, hit": "a stored key is found",
    "overwrite": "a value is overwritten",
    "get, miss": "a key is found missing",
    "count by entries": "items are counted",
    "remove and put back": "a pair is removed, put back",
    "walk": "all pairs are walked",
    "new and fill": "a new map is filled",
    "clone": "a map is cloned",
}
# The README's table has the times of one of these, at some capacities, in a row that begins with these words.
FOUND, FOUND_CAPACITIES, FOUND_WORDS = "get, hit", [2, 4, 8, 16, 32], "Finds one of"
# A number, and a `~` where it isn't steady.
Ratio = namedtuple("Ratio", "number mark")
# What was measured of a workload at a capacity: the Rust crate's nanoseconds, and the ratio of each rival's time to them.
Cell = namedtuple("Cell", "nanoseconds ratios")
PART = r"(^<!-- made by tools/compare: ([^\n]*) -->\n).*?(^<!-- end -->$)"


def parsed(text):
    """A record's or the driver's lines, as where it is from, {(subject, workload): {capacity: cell}} and {type: {capacity: sizes}}."""
    source, times, sizes = "", defaultdict(dict), defaultdict(dict)
    for kind, *words in (line.split("\t") for line in text.splitlines()):
        if kind == "source":
            source = words[0]
        elif kind == "time":
            subject, workload, capacity, nanoseconds, *ratios = words
            marked = [Ratio(float(it.rstrip("~")), "~" if it.endswith("~") else "") for it in ratios]
            times[subject, workload][int(capacity)] = Cell(float(nanoseconds), marked)
        elif kind == "size":
            sizes[words[0]][int(words[1])] = int(words[2]), int(words[3])
    return source, times, sizes


def record(source, times, sizes):
    lines = [["source", source]]
    for (subject, workload), cells in times.items():
        for at, (nanoseconds, ratios) in cells.items():
            lines.append(["time", subject, workload, at, f"{nanoseconds:.2f}", *(f"{it:.4f}{mark}" for it, mark in ratios)])
    lines += (["size", name, at, *both] for name, cells in sizes.items() for at, both in cells.items())
    return "".join("\t".join(map(str, it)) + "\n" for it in lines)


def shown(ratio):
    return f"{ratio.number:.2f}{ratio.mark}"


def coarse(ratio):
    """A ratio to about two digits."""
    digits = 2 if ratio.number < 1 else 1 if ratio.number < 10 else 0
    return f"{ratio.number:.{digits}f}{ratio.mark}"


def mean(ratios):
    """The geometric mean, marked if one of them is."""
    return Ratio(geometric_mean(it.number for it in ratios), max(it.mark for it in ratios))


def averaged(runs):
    """The geometric means of several runs' figures."""
    times = defaultdict(dict)
    for key, at in ((key, at) for key, cells in runs[0].items() for at in cells):
        cells = [run[key][at] for run in runs]
        ratios = [mean(it) for it in zip(*(cell.ratios for cell in cells))]
        times[key][at] = Cell(geometric_mean(it.nanoseconds for it in cells), ratios)
    return times


def ratios_of(cells, rival):
    """A rival's ratios at each capacity; none where it doesn't take part."""
    return [it.ratios[rival] for it in cells.values() if rival < len(it.ratios)]


def over(cells, rival, other):
    """A rival's ratios over another one's."""
    both = zip(ratios_of(cells, rival), ratios_of(cells, other))
    return [Ratio(first.number / second.number, max(first.mark, second.mark)) for first, second in both]


def brief(nanoseconds):
    return f"{nanoseconds:.{1 if nanoseconds < 9.95 else 0}f}"


def row(words):
    return f"| {' | '.join(words)} |"


def heading(first, others):
    names = [first, *map(str, others)]
    return [row(names), row(["---"] + ["--:"] * (len(names) - 1))]


def size_table(sizes):
    """A table of sizes, in which types of equal sizes share a row."""
    names = defaultdict(list)
    for type_name, cells in sizes.items():
        names[tuple(cells.values())].append(f"`{type_name}`")
    rows = (row([", ".join(those), *(f"{own} ({other})" for own, other in cells)]) for cells, those in names.items())
    return [*heading("Bytes (the Rust crate's)", next(iter(sizes.values()))), *rows]


def choice_table(times):
    """A table of this library's times, and of those of what a user might take in its place over these."""
    first, *others = CHOICE_CAPACITIES
    names = ["`Map`, ns,", *(RIVALS[it] for it in CHOICES)]
    lines = heading("", (it for name in names for it in (f"{name} at {first}", *others)))
    for workload, words in CHOICE_WORDS.items():
        cells = times["numbers", workload]
        own = (brief(cells[at].nanoseconds * cells[at].ratios[0].number) for at in CHOICE_CAPACITIES)
        others = (dict(zip(cells, over(cells, rival, 0))) for rival in CHOICES)
        lines.append(row([words, *own, *(coarse(it[at]) for it in others for at in CHOICE_CAPACITIES)]))
    return lines


def found_table(times, part):
    """The README's table of what to take, with the rows that it has and its rows of times."""
    yield from (line for line in part.splitlines() if line.startswith("|") and not line.startswith(f"| {FOUND_WORDS}"))
    cells = times["numbers", FOUND]
    for at in FOUND_CAPACITIES:
        nanoseconds, ratios = cells[at]
        found = (ratios[rival] for rival in [0, *CHOICES])
        yield row([f"{FOUND_WORDS} {at} numbers in", *(f"{brief(nanoseconds * ratio)}{mark} ns" for ratio, mark in found)])
    yield "\nA `~` marks a figure that [isn't steady](docs/SPEED.md#how-it-was-measured)."


def own_of(cells):
    return ratios_of(cells, 0)


def over_layout(cells):
    return over(cells, 0, 1)


def mean_of_all(times, of):
    """The mean of some ratios over all workloads."""
    return shown(mean([one for cells in times.values() for one in of(cells)]))


def summary(source, times):
    """Where the figures are from, and what they come to."""
    yield f"The figures are {source[0].lower()}{source[1:]}\n"
    took, wins = f"this library takes {mean_of_all(times, own_of)} times that crate's time", []
    yield f"- **Beside the Rust crate**: in the mean of {len(times)} workloads {took}."
    for at in times["numbers", FOUND]:
        ratios = (times["numbers", it][at].ratios for it in CHOICE_WORDS)
        wins.append(f"{sum(it[0] < min(it[rival] for rival in CHOICES) for it in ratios)} with {at}")
    uses = f"of the {len(CHOICE_WORDS)} uses in the next table"
    yield f"- **Beside two hash maps**: {uses}, `Map` is the fastest in {', '.join(wins[:-1])} and {wins[-1]} keys."


def speed_list(times):
    """In which workloads this library is as fast as the Rust crate, faster and slower, each with its mean ratio, the least
    and the greatest."""
    ratios = {": ".join(it).removeprefix("numbers: "): own_of(cells) for it, cells in times.items()}
    means = {name: round(mean(those).number, 2) for name, those in ratios.items()}
    cells = {name: f"`{name}` {shown(mean(those))} ({shown(min(those))}–{shown(max(those))})" for name, those in ratios.items()}
    groups = {
        "As fast, to a twentieth": (0.95, 1.05),
        "Faster": (0, 0.94),
        "Slower": (1.06, 2),
        "More than twice the time": (2.01, math.inf),
    }
    for words, (low, high) in groups.items():
        names = sorted((it for it in means if low <= means[it] <= high), key=means.get)
        yield f"- {words}: {', '.join(map(cells.get, names)) or 'none'}."


def worst(cells, ratios):
    """The mean of some ratios and the greatest, with its capacity."""
    most, at = max(zip(ratios, cells))
    return f"{shown(mean(ratios))}; {coarse(most)} at {at}"


def layout_table(times):
    """The table of what takes over a fifth longer than the layout, and what holds of the rest and of all."""
    means = {key: mean(over_layout(it)) for key, it in times.items()}
    yield from ["| | Over the Rust crate | Over the layout |", "|---|---|---|"]
    for key in sorted((it for it in means if means[it].number > 1.2), key=means.get, reverse=True):
        yield row([": ".join(key), *(worst(times[key], of(times[key])) for of in (own_of, over_layout))])
    rest, of_all = [it for it in means.values() if it.number <= 1.2], mean_of_all(times, over_layout)
    yield f"\nAll others take {shown(min(rest))} to {shown(max(rest))} times the layout's time. The mean of all is {of_all}."


def draw_chart(text):
    """Draws the chart anew from a record."""
    source, times, _ = parsed(text)
    rivals, panels = [0, *CHOICES], []
    for name in PANELS:
        cells = times["numbers", name]
        lines = [[it.number for it in ratios_of(cells, rival)] for rival in rivals]
        panels.append((f"{name}: {shown(mean(own_of(cells)))}", [*cells], lines))
    names = [RIVALS[it].replace("`", "") for it in rivals]
    draw(CHART, text, "Time relative to the Rust crate's, with numbers as keys and values", source, names, panels)


def made(text):
    """The pages with the parts that a record makes."""
    source, times, sizes = parsed(text)
    makers = {
        "what it takes to find a key": lambda part: found_table(times, part),
        "in short": lambda _: summary(source, times),
        "times relative to Map's": lambda _: choice_table(times),
        "times relative to the Rust crate's": lambda _: speed_list(times),
        "what takes longer than the layout": lambda _: layout_table(times),
        "sizes in bytes": lambda _: size_table(sizes),
    }

    def part_of(found):
        return "\n".join([found[1], *makers[found[2]](found[0]), "", found[3]])

    return {path: re.sub(PART, part_of, read(path), flags=re.M | re.S) for path in (README, SPEED)}


def wrong_of_speed():
    """Which files aren't what the record makes. Of the chart only the sum of its record is compared, which needs no matplotlib."""
    text = read(RECORD)
    stale = [path for path, page in made(text).items() if read(path) != page]
    if not os.path.exists(CHART) or drawn_of(read(CHART)) != sum_of(text):
        stale.append(CHART)
    return [f"{path} isn't what {RECORD} has: run tools/compare --chart" for path in stale]

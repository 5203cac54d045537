"""The README's chart: ratios over the capacity, a panel for each workload. It wants matplotlib, which is Debian's package
python3-matplotlib, and then /usr/bin/python3 tools/compare --chart. Nothing else imports matplotlib."""
import hashlib
import math
import re
import textwrap

COLUMNS = 3
STYLES = [  # of each line
    {"color": "#0b62c4", "linewidth": 2.2, "marker": "o", "markersize": 4},
    {"color": "#b35900", "linewidth": 1.4, "linestyle": "dashed"},
    {"color": "#7a5ea8", "linewidth": 1.4, "linestyle": "dotted"},
]
# The letters are written as text, and two drawings of the same figures are the same file.
SETTINGS = {"svg.fonttype": "none", "svg.hashsalt": "speed", "font.family": "sans-serif", "font.size": 8.5}
HELP = """Below 1, in the shaded part, a line is faster than the Rust crate. Beside each name is this library's geometric mean over
the capacities. A ~ marks a mean with a figure that isn't steady."""


def plotting():
    """The module that draws, or the end of the run where there is none."""
    try:
        import matplotlib.pyplot
    except ImportError:
        raise SystemExit("the chart wants matplotlib: apt-get install python3-matplotlib, then /usr/bin/python3 tools/compare ..")
    matplotlib.use("svg")
    matplotlib.rcParams.update(SETTINGS)
    return matplotlib.pyplot


def sum_of(record):
    return hashlib.sha256(record.encode()).hexdigest()


def drawn_of(chart):
    """The sum of the record that a chart was drawn of, by the chart's text."""
    found = re.search(r"<dc:source>(\w+)</dc:source>", chart)
    return found[1] if found else ""


def draw_panel(axis, title, capacities, lines, names):
    for name, ratios, style in zip(names, lines, STYLES):
        axis.plot(range(len(capacities)), ratios, label=name, **style)
    axis.set_title(title, loc="left", fontsize=9, fontweight="bold")
    axis.set_xticks(range(len(capacities)), capacities)
    axis.set_xlabel("capacity")
    axis.set_yscale("log", base=2)
    axis.yaxis.get_major_locator().set_params(numticks=20)  # each power of two
    axis.yaxis.set_major_formatter("{x:g}")
    axis.minorticks_off()
    axis.tick_params(left=False, bottom=False)
    axis.grid(axis="y", color="#d1d9e0", linewidth=0.6)
    axis.axhline(1, color="#59636e", linewidth=1, label="the Rust crate")


def draw(path, record, title, source, names, panels):
    """Draws the chart of a record. A panel has its title, its capacities, and the ratios of each line, which are in the order of
    `names`."""
    plots = plotting()
    figure, axes = plots.subplots(math.ceil(len(panels) / COLUMNS), COLUMNS, figsize=(8.4, 6.4), sharey=True)
    for axis, panel in zip(axes.flat, panels):
        draw_panel(axis, *panel, names)
    lowest, highest = axes.flat[0].get_ylim()
    for axis in axes.flat:
        axis.axhspan(lowest, 1, color="#dff3e4", zorder=0)
        axis.set_ylim(lowest, highest)
    figure.tight_layout(rect=(0, 0, 1, 0.81))
    figure.text(0.04, 0.955, title, fontsize=12, fontweight="bold")
    figure.text(0.04, 0.85, textwrap.fill(f"{HELP} {source}", 130), fontsize=8, color="#59636e")
    figure.legend(*axes.flat[0].get_legend_handles_labels(), loc=(0.03, 0.8), ncol=len(names) + 1, frameon=False)
    figure.savefig(path, metadata={"Date": None, "Title": title, "Source": sum_of(record)})

"""Draws the figures of bench/results as SVG, one file for each question: needs python3-matplotlib.

    python3 bench/plot.py bench/results/DATE-COMMIT.json bench/results/DATE-COMMIT-scale.json ..
"""
import json
import pathlib
import sys

import matplotlib

matplotlib.use("svg")
from matplotlib import pyplot as plt  # after the choice of its output
from workloads import LISTS

FOLDER = pathlib.Path(__file__).resolve().parent / "plots"
GREY = "#808080"
COLOURS = ["#2a8fd6", "#d9822b", "#3aa657", "#b065c9", "#d0516b", "#8c7b3f", "#20a0a0"]

# Grey text and lines on no ground of their own are read on light and on dark ones.
plt.rcParams.update({
    "svg.hashsalt": "lol_match",
    "savefig.transparent": True,
    "font.size": 10,
    **{name: GREY for name in ("text.color", "axes.labelcolor", "axes.edgecolor", "xtick.color", "ytick.color", "grid.color")},
})


def kept(figure, name):
    FOLDER.mkdir(exist_ok=True)
    figure.savefig(FOLDER / f"{name}.svg", bbox_inches="tight", metadata={"Date": None})
    plt.close(figure)


def ratios(recorded):
    """How long lol_match takes beside the other program, by workload."""
    rows = [(name, figures) for name, figures in recorded["workloads"].items() if "beside" in figures]
    if not rows:
        return
    values = [figures["port"]["seconds"] / figures["beside"]["seconds"] for _, figures in rows]
    figure, axes = plt.subplots(figsize=(7, 3))
    axes.barh([name for name, _ in rows], values, color=COLOURS[0], height=0.6)
    axes.axvline(1, color=GREY, linewidth=1)
    for place, value in enumerate(values):
        axes.text(value + 0.01, place, f"{value:.2f}", va="center")
    axes.invert_yaxis()
    axes.set_xlim(0, 1.1)
    axes.set_xlabel("time of lol_match over that of lol_html's machine")
    kept(figure, "ratios")


def lines(rows, by, field, names, axes):
    """One line for each name, a dotted one with rows, and a dashed one for the other program, where these were measured."""
    for colour, name in zip(COLOURS, names):
        for whose, style, said in (("port", "-", ""), ("rows", ":", ", with rows"), ("beside", "--", ", lol_html")):
            points = [(row["size"], row[whose][field]) for row in rows if row[by] == name and row.get(whose, {}).get(field)]
            if points:
                axes.plot(*zip(*points), style, color=colour, marker="o", markersize=3, label=name + said)
    axes.set_xscale("log")
    axes.set_yscale("log")
    axes.grid(True, linewidth=0.3)
    axes.legend(frameon=False, fontsize=8)


def growth(recorded):
    """The cost of a start tag by the number of selectors, and the memory by the number of tags."""
    plots = [
        ("selectors", "microseconds", list(LISTS), "selectors", "microseconds a start tag"),
        ("instructions", "instructions", list(LISTS), "selectors", "instructions a start tag"),
        ("memory", "megabytes", ["tags of a page, 50 selectors", "open elements", "siblings"], "tags", "megabytes"),
    ]
    for name, field, kinds, across, up in plots:
        if not any(row["by"] in kinds and row["port"][field] for row in recorded["rows"]):
            continue
        figure, axes = plt.subplots(figsize=(6, 4))
        lines(recorded["rows"], "by", field, kinds, axes)
        axes.set_xlabel(across)
        axes.set_ylabel(up)
        kept(figure, name)


def peers(recorded):
    """The tags that each engine searches a second, by the number of selectors."""
    figure, axes = plt.subplots(figsize=(6, 4))
    for colour, name in zip(COLOURS, dict.fromkeys(row["engine"] for row in recorded["peers"])):
        points = [(row["selectors"], recorded["tags"] / row["later"]) for row in recorded["peers"] if row["engine"] == name]
        axes.plot(*zip(*points), color=colour, marker="o", markersize=3, label=name)
    axes.set_xscale("log")
    axes.set_yscale("log")
    axes.grid(True, linewidth=0.3)
    axes.legend(frameon=False, fontsize=8)
    axes.set_xlabel("selectors")
    axes.set_ylabel("start tags a second")
    kept(figure, "peers")


KINDS = {"workloads": ratios, "rows": growth, "peers": peers}


def main():
    for file in sys.argv[1:]:
        recorded = json.loads(pathlib.Path(file).read_text(encoding="utf-8"))
        next(draw for name, draw in KINDS.items() if name in recorded)(recorded)
    print(f"drawn in {FOLDER.name}/")


if __name__ == "__main__":
    main()

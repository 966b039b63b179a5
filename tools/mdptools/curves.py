"""Draws an experiment by matplotlib, the one package that is asked for, and here alone."""

import math
import os

ENDINGS = (".svg", ".png", ".pdf")


class CannotPlot(Exception):
    """Why nothing is drawn."""


def axes_of(result):
    """What stands at the axes: the number of steps, and the value by the name of the reward where it is one."""
    query = result.asked.tree
    return f"{query.path.steps.name}, steps", "probability" if query.operator == "P" else f"reward {getattr(query.reward, 'name', '')}".strip()


def ready(path):
    """Whether a plot can be drawn, before anything is computed for it."""
    if os.path.splitext(path)[1] not in ENDINGS:
        raise CannotPlot(f"a plot is {', '.join(ENDINGS)}: {path} ends with none of these")
    try:
        import matplotlib
    except ImportError:
        raise CannotPlot("--plot needs matplotlib: python3 -m pip install matplotlib; all else works without it, and --csv has the numbers") from None
    matplotlib.use("Agg")


def plot(path, result):
    """Draws lower and upper value by the number of steps."""
    if not result.curve:
        raise CannotPlot('there is nothing to plot but an experiment, as Pmax=? [ F<=k "goal" ] with --const k=1:100')
    from matplotlib import pyplot

    steps = [k for k, _, _ in result.curve]
    lower, upper = ([float(value) if abs(value) < math.inf else math.nan for value in column] for column in list(zip(*result.curve))[1:])
    figure, axes = pyplot.subplots(figsize=(7, 4.2))
    axes.plot(steps, upper, color="tab:red", label="upper", linewidth=1)
    axes.plot(steps, lower, color="tab:blue", label="lower", linewidth=1)
    axes.fill_between(steps, lower, upper, color="tab:gray", alpha=0.3)
    axes.set(xlabel=axes_of(result)[0], ylabel=axes_of(result)[1], title=result.asked.words()[:90])
    axes.grid(alpha=0.3)
    axes.legend()
    figure.tight_layout()
    figure.savefig(path)

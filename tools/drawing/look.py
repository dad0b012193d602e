"""How pictures are written: the same one as the same file."""
import io
import re
from pathlib import Path

from matplotlib.figure import Figure
from memplan._plot_look import printable

STYLE = {
    "font.size": 10,
    "svg.fonttype": "none",
    "svg.hashsalt": "memplan",
    # a dollar sign begins no formula
    "text.parse_math": False,
}

# The lines of an SVG, and in their numbers what is below a hundredth of a point.
LINES = re.compile(r' d="[^"]*"')
TOO_FINE = re.compile(r"(\.\d\d)\d+")


def short_name(name: str) -> str:
    return printable(Path(name).name)


def save(figure: Figure, name: str) -> None:
    """The same picture is the same file: no date stands in it."""
    if name.endswith(".png"):
        figure.savefig(name, dpi=150, bbox_inches="tight", metadata={"Software": None})
        return
    drawn = io.StringIO()
    figure.savefig(drawn, format="svg", dpi=150, bbox_inches="tight", metadata={"Date": None})
    fine = LINES.sub(lambda line: TOO_FINE.sub(r"\1", line[0]), drawn.getvalue())
    Path(name).write_text(fine, encoding="utf-8")

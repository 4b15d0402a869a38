"""Words of SVG: texts, boxes, lines, and a picture with its title and colours, which follow the reader's light or dark scheme."""
from html import escape

STYLE = """
  svg { --back: #ffffff; --ink: #1b2130; --soft: #525b6e; --line: #b6bfce; --box: #f6f7f9; --page: #1f5fbf; --inside: #a8480c;
    --third: #1d7340; --off: #6b7280; }
  @media (prefers-color-scheme: dark) {
    svg { --back: #12151c; --ink: #e7eaf1; --soft: #a9b2c3; --line: #4c566a; --box: #1b202b; --page: #8ab4f8; --inside: #f0a36b;
      --third: #7fd1a0; --off: #8d96a8; }
  }
  text { font: 14px system-ui, "Segoe UI", "DejaVu Sans", sans-serif; fill: var(--ink); }
  .mono { font-family: ui-monospace, Menlo, Consolas, "DejaVu Sans Mono", monospace; font-size: 13px; }
  .soft { fill: var(--soft); } .small { font-size: 12px; } .tiny { font-size: 10.5px; } .strong { font-weight: 600; }
  .middle { text-anchor: middle; } .end { text-anchor: end; }
  .back { fill: var(--back); } .box { fill: var(--box); stroke: var(--line); } .edge { fill: none; stroke: var(--line); stroke-width: 1.3; }
  .page { fill: var(--page); } .inside { fill: var(--inside); } .third { fill: var(--third); } .off { fill: var(--off); }
  .page-edge { fill: none; stroke: var(--page); stroke-width: 1.8; } .inside-edge { fill: none; stroke: var(--inside); stroke-width: 1.8; }
  .off-edge { fill: none; stroke: var(--off); stroke-dasharray: 4 3; } .dashed { stroke-dasharray: 5 4; }
  svg .chip { fill: var(--back); } .thick { stroke-width: 3.4; }
"""


def text(x, y, words, look=""):
    """Words at a place, with the classes of their look."""
    return f'<text x="{x:.1f}" y="{y:.1f}" class="{look}">{escape(words)}</text>'


def box(x, y, width, height, look="box", round_by=6):
    """A rectangle with round corners."""
    return f'<rect x="{x:.1f}" y="{y:.1f}" width="{width:.1f}" height="{height:.1f}" rx="{round_by}" class="{look}"/>'


def line(points, look="edge", arrow=""):
    """Straight lines from point to point, with the arrow head of that name at the end."""
    head = f' marker-end="url(#{arrow})"' if arrow else ""
    path = "M" + " L".join(f"{x:.1f} {y:.1f}" for x, y in points)
    return f'<path d="{path}" class="{look}"{head}/>'


def curves(points, look="edge", arrow=""):
    """A line through points, two at a time: curves that leave and meet a layer upright, and upright lines through a layer."""
    head = f' marker-end="url(#{arrow})"' if arrow else ""
    path = f"M{points[0][0]:.1f} {points[0][1]:.1f}"
    for number, ((x, y), (to_x, to_y)) in enumerate(zip(points, points[1:])):
        middle = (y + to_y) / 2
        path += f" L{to_x:.1f} {to_y:.1f}" if number % 2 else f" C{x:.1f} {middle:.1f} {to_x:.1f} {middle:.1f} {to_x:.1f} {to_y:.1f}"
    return f'<path d="{path}" class="{look}"{head}/>'


def arrow_head(name, look):
    return (f'<marker id="{name}" viewBox="0 0 8 8" refX="7" refY="4" markerWidth="7" markerHeight="7" orient="auto-start-reverse">'
            f'<path d="M0 0 L8 4 L0 8 z" class="{look}"/></marker>')


def picture(width, height, title, said, parts):
    """A whole picture: `title` and `said` are what a reader who does not see it is told."""
    heads = "".join(arrow_head(name, look) for name, look in (("to", "soft"), ("to-page", "page"), ("to-inside", "inside")))
    body = "\n".join(parts)
    size = f'width="{width:.0f}" height="{height:.0f}" viewBox="0 0 {width:.0f} {height:.0f}"'
    return (f'<svg xmlns="http://www.w3.org/2000/svg" {size} role="img" '
            f'aria-labelledby="t d">\n<title id="t">{escape(title)}</title>\n<desc id="d">{escape(said)}</desc>\n<style>{STYLE}</style>\n'
            f"<defs>{heads}</defs>\n{box(0, 0, width, height, 'back', 0)}\n{body}\n</svg>\n")

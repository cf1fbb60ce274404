"""Text and whole pictures in SVG, for the scripts that draw."""

from html import escape


def text(x, y, words, kind="", anchor="start", colour=""):
    """Words at a place, of a class of the picture's style."""
    kind = (f' class="{kind}"' if kind else "") + (f' style="fill: {colour}"' if colour else "")
    return f'<text x="{round(x, 1)}" y="{round(y, 1)}" text-anchor="{anchor}"{kind}>{escape(words)}</text>'


def group(x, y, marks):
    """Marks that were made from 0, 0 on, moved to a place."""
    return f'<g transform="translate({x}, {y})">\n' + "\n".join(marks) + "\n</g>"


def picture(width, height, title, style, *marks):
    """A whole picture; its ground is white, also on a dark page."""
    return "\n".join([
        f'<svg xmlns="http://www.w3.org/2000/svg" width="{width}" height="{height}" viewBox="0 0 {width} {height}">',
        f"<title>{escape(title)}</title>", f"<style>{style}</style>",
        f'<rect width="{width}" height="{height}" rx="6" fill="#fff"/>', *marks, "</svg>", ""])

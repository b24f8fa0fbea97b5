#!/usr/bin/env python3
"""Draws transcript.svg beside it: how data goes from a pattern to a prover, a proof and a verifier. It takes no words."""
import html
import os

WIDE, HIGH = 960, 452
INK, QUIET, PAPER, FILL = "#1f2328", "#59636e", "#ffffff", "#f6f8fa"
BLUE, GREEN, AMBER = "#0969da", "#1a7f37", "#9a6700"
FONT = "font-family='-apple-system,Segoe UI,Helvetica,Arial,sans-serif'"


def text(x, y, words, size=14, ink=INK, anchor="middle", weight="normal"):
    """Returns a line of text."""
    how = f"font-size='{size}' fill='{ink}' text-anchor='{anchor}' font-weight='{weight}'"
    return f"<text x='{x}' y='{y}' {FONT} {how}>{html.escape(words)}</text>"


def box(x, y, wide, high, title, lines, edge=INK):
    """Returns a box with a title and lines of text, from its upper left corner."""
    how = f"rx='8' fill='{FILL}' stroke='{edge}' stroke-width='1.5'"
    drawn = [f"<rect x='{x}' y='{y}' width='{wide}' height='{high}' {how}/>"]
    drawn.append(text(x + wide / 2, y + 24, title, 15, edge, weight="bold"))
    drawn += [text(x + wide / 2, y + 46 + 19 * at, line, 13) for at, line in enumerate(lines)]
    return "\n".join(drawn)


def arrow(points, ink=INK, dashes=""):
    """Returns an arrow along points."""
    path = " ".join(f"{'L' if at else 'M'}{x},{y}" for at, (x, y) in enumerate(points))
    style = f"fill='none' stroke='{ink}' stroke-width='1.8' marker-end='url(#{ink[1:]})'"
    return f"<path d='{path}' {style}{f' stroke-dasharray={dashes!r}' if dashes else ''}/>"


def head(ink):
    """Returns the head of the arrows of a colour."""
    shape = f"<path d='M0,0 L9,4.5 L0,9 z' fill='{ink}'/>"
    how = "markerWidth='9' markerHeight='9' refX='8' refY='4.5' orient='auto' markerUnits='userSpaceOnUse'"
    return f"<marker id='{ink[1:]}' {how}>{shape}</marker>"


def picture():
    """Returns the parts of the picture."""
    yield f"<rect width='{WIDE}' height='{HIGH}' rx='10' fill='{PAPER}'/>"
    yield f"<defs>{''.join(head(ink) for ink in (INK, BLUE, GREEN, AMBER))}</defs>"
    # What the protocol is.
    steps = ["the steps in order: public values,", "messages, challenges, hints,", "proof of work"]
    yield box(40, 24, 250, 104, "Pattern", steps)
    bound = ["version and name of the protocol,", "digest of the pattern,", "label of the instance"]
    yield box(370, 24, 300, 104, "DomainSeparator", bound)
    yield arrow([(290, 76), (366, 76)])
    # The two sides.
    yield box(40, 196, 250, 84, "ProverState", ["plays the pattern,", "encodes what it sends"], BLUE)
    yield box(670, 196, 250, 84, "VerifierState", ["plays the same pattern,", "reads untrusted bytes"], GREEN)
    yield box(404, 196, 152, 84, "proof", ["the encodings,", "and no byte more"])
    yield arrow([(290, 238), (400, 238)], BLUE)
    yield text(337, 229, "writes", 12, BLUE)
    yield arrow([(556, 238), (666, 238)], GREEN)
    yield text(623, 229, "is read", 12, GREEN)
    yield arrow([(165, 128), (165, 192)])
    yield text(174, 165, "the next step, or refused", 12, QUIET, "start")
    yield arrow([(290, 50), (330, 50), (330, 12), (795, 12), (795, 192)])
    yield text(786, 165, "the same", 12, QUIET, "end")
    # The challengers.
    yield box(40, 344, 250, 84, "challenger", ["a hash function or a permutation", "over all that was absorbed"], BLUE)
    yield box(670, 344, 250, 84, "challenger", ["the same symbols absorbed:", "the same challenges"], GREEN)
    for left, ink in ((40, BLUE), (670, GREEN)):
        yield arrow([(left + 85, 280), (left + 85, 340)], ink)
        yield text(left + 76, 315, "absorbs", 12, ink, "end")
        yield arrow([(left + 165, 344), (left + 165, 284)], ink)
        yield text(left + 174, 315, "challenge", 12, ink, "start")
    # The seed.
    yield arrow([(384, 128), (384, 386), (294, 386)], AMBER)
    yield arrow([(576, 128), (576, 386), (666, 386)], AMBER)
    for at, words in enumerate(("the seed, absorbed", "before any step")):
        yield text(480, 372 + 18 * at, words, 13, AMBER)
    yield text(480, 422, "a hint is in the proof, and is not absorbed", 12, QUIET)


def main():
    """Writes the picture."""
    told = "A pattern and a separator go to a prover, which writes the proof, and to a verifier. Each has a challenger."
    top = f"<svg xmlns='http://www.w3.org/2000/svg' viewBox='0 0 {WIDE} {HIGH}' width='{WIDE}' height='{HIGH}' role='img'>"
    lines = [top, f"<title>{html.escape(told)}</title>", *picture(), "</svg>"]
    folder = os.path.dirname(os.path.realpath(__file__))
    with open(f"{folder}/transcript.svg", "w", encoding="utf-8") as file:
        file.write("\n".join(lines) + "\n")


if __name__ == "__main__":
    main()

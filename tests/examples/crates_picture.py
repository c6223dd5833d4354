"""The picture of docs/crates.md, drawn from crates.txt: the groups of the program's crates, from the top down."""

from pathlib import Path

ROOT = Path(__file__).resolve().parent.parent.parent
PICTURE = ROOT / "docs" / "crates.svg"
WIDTH, LEFT, ROW = 884, 96, 44  # of the picture, of the names of groups, and the height of a group


def groups():
    """The groups but the gate's by name, each with its crates, upper ones first."""
    found = {}
    for line in (ROOT / "crates.txt").read_text().splitlines():
        name = line.removeprefix("# ").split(":")[0]
        if line.startswith("# ") and ":" in line and not line.startswith("# Lower"):
            found[name] = []
        elif line and not line.startswith("#"):
            found[list(found)[-1]].insert(0, name)
    return {name: found[name] for name in reversed(found) if name != "gate"}


def drawn():
    """The picture."""
    lines, boxes, labels, names = [], [], [], []
    for row, (group, crates) in enumerate(groups().items()):
        top, left = 14 + ROW * row, LEFT
        labels.append(f'<text x="12" y="{top + 21}">{group}</text>')
        lines += [f'<line x1="12" y1="{top - 6}" x2="{WIDTH - 12}" y2="{top - 6}"/>'] if row else []
        for crate in crates:
            width = 20 + 8 * len(crate)
            boxes.append(f'<rect x="{left}" y="{top}" width="{width}" height="32" rx="5"/>')
            names.append(f'<text x="{left + width // 2}" y="{top + 21}">{crate}</text>')
            left += width + 12
    height = 22 + ROW * len(groups())
    parts = [
        f'<svg xmlns="http://www.w3.org/2000/svg" viewBox="0 0 {WIDTH} {height}" width="{WIDTH}" height="{height}"'
        ' font-family="sans-serif" font-size="13">',
        "  <title>The crates of the program in groups, each above those that it stands on</title>",
        f'  <rect width="{WIDTH}" height="{height}" fill="#fff"/>',
    ]
    for style, items in (
        ('stroke="#ccc" stroke-width="1"', lines),
        ('fill="#eef3f8" stroke="#444" stroke-width="1.2"', boxes),
        ('fill="#666"', labels),
        ('fill="#000" text-anchor="middle"', names),
    ):
        parts += [f"  <g {style}>", *("    " + item for item in items), "  </g>"]
    return "\n".join([*parts, "</svg>"]) + "\n"


def differences(is_written):
    """That the picture isn't the one of crates.txt, as a line."""
    if is_written:
        PICTURE.write_text(drawn())
    elif PICTURE.read_text() != drawn():
        yield "docs/crates.svg isn't the picture of crates.txt; tests/examples/run --write draws it"

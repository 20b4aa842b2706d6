"""Draws docs/pictures/certificate.svg: what is tested, proved and believed, with the counts of the sources and those of tests/counts.txt."""
from believing import tally

PICTURE, COUNTS = "docs/pictures/certificate.svg", "tests/counts.txt"
TITLE = "What is tested, what is proved and what has to be believed"
WIDTH, LEFT, GAP, PADDING = 980, 20, 12, 14
STYLE = """
    svg { background: #ffffff; font-family: sans-serif; }
    .head { font-size: 17px; font-weight: bold; fill: #111111; }
    .name { font-size: 14px; font-weight: bold; fill: #111111; }
    .what { font-size: 13px; fill: #333333; }
    .tested { fill: #f3f3f3; stroke: #555555; stroke-width: 1.5; stroke-dasharray: 5 3; }
    .proved { fill: #eaf6ea; stroke: #1d6b2a; stroke-width: 1.5; }
    .believed { fill: #e8f0fb; stroke: #0b4a8f; stroke-width: 1.5; }
    .on { stroke: #888888; stroke-width: 1.3; fill: none; }
  """


def stored(text):
    """The numbers of tests/counts.txt by their names."""
    lines = (line.split(" ", 1) for line in text.split("\n") if line and not line.startswith("#"))
    return {name: number for number, name in lines}


def bands(model, count, tests):
    """From top to bottom: the sort, its headings and its rows of boxes, each a name and lines below it."""
    sorts = {said: (number, lines) for said, number, lines in tally(model)}
    primitive, texts, theorem, pinned = sorts.values()
    marks = [mark.sort for mark in model.marks.values()]
    yield "tested", "Tested: what people use", "in each run of the gate, against what is stored or an independent answer", [
        [("C and C++", f"a table of {tests['rows']} calls,", "each refusal among them"),
         ("Rust", f"{tests['tests of Rust']} tests; the calls of the", "table that its types allow"),
         ("JavaScript", f"{tests['tests of JavaScript']} tests; the same calls", "in node and Chromium"),
         ("Python", f"{tests['tests of Python']} tests;", "the same calls")],
        [("The command", f"{tests['commands']} commands as stored;", f"{tests['damaged certificates']} damaged certificates"),
         ("The page", f"{tests['tests in Chromium']} tests in Chromium,", "by mouse, touch and keyboard"),
         ("What is installed", f"{tests['files and folders']} files and folders by make;", "packages by their managers"),
         ("The statements' pages", f"{tests['planted faults']} planted faults,", "all found")]]
    yield "tested", "Tested: what the compiler made", "the same proved library for three machines; built twice, it has the same bytes", [
        [("x86-64", f"{tests['calls compared']} calls as a plain version answers,", f"{tests['calls on x86-64']} as the other two"),
         ("aarch64", f"{tests['calls on aarch64']} calls:", "the same answers and bytes"),
         ("wasm32", f"{tests['calls on wasm32']} calls:", "the same answers and bytes")]]
    yield "proved", "Proved, for every input", "by the kit's prover, in a run of the gate over the same files; no axiom is added", [
        [(f"{count['contracts']:,} contracts", "each answer and each lent byte", "is what a definition makes of the input"),
         (f"{count['laws']:,} laws and {count['fields']:,} fields", f"they pin {marks.count('pinned'):,} of {count['clauses']:,} clauses", f"and {pinned[0]:,} definitions"),
         (f"{count['rows']:,} wrong answers", "ruled out by two proofs;", f"{count['edits']:,} wrong edits refused")]]
    yield "believed", "Believed", "nothing else has to be", [
        [(f"{primitive[1]:,} lines to read", f"{primitive[0]:,} primitive definitions;", f"{theorem[1]:,} lines more for the theorem"),
         (f"{texts[1]:,} lines to compare", "texts and tables, with", "the specification"),
         ("The specification", "that it says", "what is wanted"),
         ("The Rattle kit", "prover, logic, compiler;", "the system, for programs")]]


def escaped(text):
    return text.replace("&", "&amp;").replace("<", "&lt;")


def drawn(model, count):
    """The picture as a text."""
    tests = stored(model.world.read(COUNTS))
    lines, y, middle = [], 14, WIDTH / 2
    for sort, head, below, rows in bands(model, count, tests):
        if lines:
            lines.append(f'  <path d="M{middle} {y} v{GAP + 8} m-5 -7 l5 7 l5 -7" class="on"/>')
            y += GAP + 16
        lines.append(f'  <text x="{middle}" y="{y + 16}" class="head" text-anchor="middle">{escaped(head)}</text>')
        lines.append(f'  <text x="{middle}" y="{y + 35}" class="what" text-anchor="middle">{escaped(below)}</text>')
        y += 46
        for row in rows:
            width = (WIDTH - 2 * LEFT - GAP * (len(row) - 1)) / len(row)
            height = 2 * PADDING + 18 * max(len(box) for box in row) - 8
            for at, (name, *said) in enumerate(row):
                x = LEFT + at * (width + GAP)
                lines.append(f'  <rect x="{x:g}" y="{y}" width="{width:g}" height="{height}" rx="6" class="{sort}"/>')
                for line, (text, style) in enumerate([(name, "name"), *((one, "what") for one in said)]):
                    lines.append(f'  <text x="{x + width / 2:g}" y="{y + PADDING + 10 + 18 * line}" class="{style}" text-anchor="middle">{escaped(text)}</text>')
            y += height + GAP
    height = y + 4
    return (f'<svg xmlns="http://www.w3.org/2000/svg" viewBox="0 0 {WIDTH} {height}" role="img" aria-label="{TITLE}">\n  <title>{TITLE}</title>\n'
            f'  <style>{STYLE}</style>\n  <rect width="{WIDTH}" height="{height}" fill="#ffffff"/>\n' + "\n".join(lines) + "\n</svg>\n")

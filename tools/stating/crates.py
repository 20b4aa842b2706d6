"""Holds the folders of crates/, the crates' page and its picture to crates.txt, by which they are proved."""
import re

LIST, PAGE, PICTURE = "crates.txt", "crates/README.md", "docs/pictures/layers.svg"
OTHERS = {"bindings, command, page"}  # what the picture names beside the crates


def listed(world):
    """The crates of crates.txt, in its order, the lowest first. Words may stand behind a name, as `staticlib`."""
    return [line.split(":")[0].split()[0] for line in world.read(LIST).split("\n") if ":" in line and not line.startswith("#")]


def wrong_crates(world):
    if not world.exists(LIST):
        yield f"{LIST} is missing"
        return
    names = listed(world)
    yield from (f"{LIST} lists {name} twice" for name in sorted(set(names)) if names.count(name) > 1)
    yield from (f"{LIST} does not list the crate {name}, so that it is not proved" for name in world.crates if name not in names)
    yield from (f"{LIST} lists {name}, and crates/ has no folder of this name" for name in names if name not in world.crates)
    for path, found in ((PAGE, on_page(world)), (PICTURE, in_picture(world, names))):
        yield from (f"{path} does not have the crate {name}" for name in names if name not in found)
        yield from (f"{path} has {name}, which is no crate of {LIST}" for name in sorted(found) if name not in names)


def on_page(world):
    """The crates that the first table of the page has, each in the first cell of a row or, for programs of one line, in the second."""
    table = world.read(PAGE).partition("| Crate |")[2].partition("\n\n")[0] if world.exists(PAGE) else ""
    rows = [line.split(" | ") for line in table.split("\n") if line.startswith("| `")]
    return {name for row in rows for name in re.findall(r"`(\w+)`", row[0] + (row[1] if "one line each" in row[1] else ""))}


def in_picture(world, names):
    """The names that the picture has: its headings, and a line that is a list of crates."""
    text = world.read(PICTURE) if world.exists(PICTURE) else ""
    found = set(re.findall(r'class="name"[^>]*>([^<]+)<', text)) - OTHERS
    lists = (line.split(", ") for line in re.findall(r'class="what"[^>]*>([^<]+)<', text))
    return found.union(*(parts for parts in lists if set(parts) <= set(names)))

"""What an exercise gives to read: its page to the first `##`, the starter files but those in C, and the pages that the line with its time
names. A link without an anchor names the whole page, one to a heading that part of it; of the first heading of a page, the lines below it."""
import re

HEADING = re.compile(r"(#+) +(.*)")


def anchor(heading):
    """The anchor of a heading, as tools/links has it: small letters, `-` for blanks, and no other signs."""
    return re.sub(r"[^\w -]", "", heading.strip().lower()).replace(" ", "-")


def part(path, name):
    """The lines of a page below the heading with the anchor `name`, up to the next heading of its level."""
    found, level, code = [], None, False
    for line in path.read_text().split("\n"):
        code ^= line.lstrip().startswith("```")
        heading = None if code else HEADING.match(line)
        if heading and level is not None and (len(heading[1]) <= level or level == 1):
            break
        if heading and level is None and anchor(heading[2]) == name:
            level = len(heading[1])
        if level is not None:
            found.append(line)
    if level is None:
        raise ValueError("%s has no part %s" % (path, name))
    return "\n".join(found)


def time_line(folder):
    return next(line for line in (folder / "README.md").read_text().split("\n") if line.startswith("Time: "))


def named(folder):
    """The texts of the pages that an exercise names, with what they are."""
    found = []
    for target in re.findall(r"\]\(([^)]*)\)", time_line(folder)):
        path, _, name = target.partition("#")
        page = (folder / path).resolve()
        found.append((target, part(page, name) if name else page.read_text()))
    return found


def to_read(folder):
    """All texts that an exercise gives to read: pages, and files of code."""
    pages = [(folder / "README.md").read_text().split("\n## ")[0]] + [text for _, text in named(folder)]
    return pages, [path.read_text() for path in sorted((folder / "starter").iterdir()) if path.suffix != ".c"]


def words(folder):
    """The numbers of words: of prose, and of tables and code."""
    pages, files = to_read(folder)
    prose, other = 0, sum(len(text.split()) for text in files)
    for page in pages:
        code = False
        for line in re.sub(r"\]\([^)]*\)", "]", page).split("\n"):
            count = len([word for word in line.split() if word.strip("|-`")])
            code ^= line.lstrip().startswith("```")
            if code or line.lstrip().startswith(("|", "```")):
                other += count
            else:
                prose += count
    return prose, other


def lines_of(text):
    return [" ".join(line.partition("//")[0].split()) for line in text.split("\n") if line.partition("//")[0].strip()]


def added(folder):
    """The lines of each file of the solution that its starter file does not have, without comments of BCPL and OCODE and without empty lines."""
    for path in sorted((folder / "solution").iterdir()):
        if path.suffix == ".md":
            continue
        old = lines_of((folder / "starter" / path.name).read_text())
        yield path.name, [line for line in lines_of(path.read_text()) if line not in old]

"""pages [-w] [FOLDER]: links of the pages lead to files of the tree, and their prose keeps within 120 columns.

- Each link of README.md and the other pages of the top, of docs/ and of host/README.md leads to a file or folder.
- A link whose text is a path leads there: 'step/Run', 'specs/Run.antt' and 'crates/step/specs/Run.antt' all stand for
  the last of them.
- No line is longer than 120 but in code blocks, tables and headings. With -w paragraphs and items that have such a line are
  wrapped first.
"""
import os
import re

WIDTH = 120
LINK = re.compile(r"\[([^\]\[]*)\]\(([^()\s]*)\)")
WORD = re.compile(rf"(?:`[^`]*`|{LINK.pattern}|\S)+")
ITEM = re.compile(r"\s*(?:[-*+]|\d+[.)]) +")
MARK = re.compile(r"(?:[-*+#>=]+|\d+[.)])$|[|#]|<!--|```")  # a word that would say something else at a line's beginning


def pages(top):
    return sorted([*top.glob("*.md"), *top.glob("docs/**/*.md"), *top.glob("host/README.md")])


def prose(text):
    """The lines of a page, each with whether it is prose."""
    inside = ""
    for line in text.split("\n"):
        start = line.lstrip()
        fence, comment = start.startswith("```"), start.startswith("<!--")
        yield line, not inside and not fence and not comment and not start.startswith(("|", "#", ">"))
        if fence and inside != "comment":
            inside = "" if inside else "code"
        elif inside != "code":
            inside = "comment" if (comment or inside) and "-->" not in line else ""


def filled(lines):
    """A paragraph or an item, wrapped where it has a line that is too long."""
    if all(len(line) <= WIDTH for line in lines):
        return lines
    item = ITEM.match(lines[0])
    line = item[0] if item else re.match(r"\s*", lines[0])[0]
    hang, done, fresh = " " * len(line), [], True
    for found in WORD.finditer("\n".join(lines)[len(line):]):
        word = " ".join(found[0].split())
        if fresh or len(line) + 1 + len(word) <= WIDTH:
            line += word if fresh else " " + word
        else:
            line, taken = line.rsplit(" ", 1) if MARK.match(word) else (line, "")
            done.append(line)
            line = hang + (taken and taken + " ") + word
        fresh = False
    return done + [line]


def wrapped(text):
    done, lines = [], []
    for line, is_prose in [*prose(text), ("", False)]:
        if lines and (not is_prose or not line.strip() or ITEM.match(line)):
            done += filled(lines)
            lines = []
        if is_prose and line.strip():
            lines.append(line)
        else:
            done.append(line)
    return "\n".join(done[:-1])


def short(path):
    """A path as a link's text may have it."""
    return "/" + re.sub(r"\.(?:antt|edit|md)$", "", path.strip("/")).replace("crates/", "").replace("specs/", "")


def faults(top, page):
    text = page.read_text()
    for number, (line, is_prose) in enumerate(prose(text), 1):
        if is_prose and len(line) > WIDTH:
            yield f"{page.relative_to(top)}:{number} has {len(line)} columns"
    code = re.sub(r"^\s*```.*?^\s*```", "", text, flags=re.M | re.S)
    for said, target in LINK.findall(re.sub(r"`[^`\n]*`", "", code)):
        if re.match(r"[a-z]+:", target):
            continue
        place = os.path.relpath(page.parent / target.split("#")[0], top)
        if place.startswith("..") or not (top / place).exists():
            yield f"{page.relative_to(top)}: {target} is not there"
        elif "/" in said and " " not in said and not short(place).endswith(short(said)):
            yield f"{page.relative_to(top)}: {said} leads to {place}"


def wrap(top):
    for page in pages(top):
        page.write_text(wrapped(page.read_text()))
    return True


OPTIONS = {"-w": (0, wrap)}


def check(top):
    found = pages(top)
    count = sum(len(LINK.findall(page.read_text())) for page in found)
    wrong = [fault for page in found for fault in faults(top, page)] if found else ["no page was found"]
    return f"links of the pages lead to files, and prose is within {WIDTH} columns\tpages {len(found)}\tlinks {count}", wrong

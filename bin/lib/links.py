"""The links of pages: those that lead nowhere, and where each leads once its page is packed.

usage: python3 bin/lib/links.py FOLDER PAGES

FOLDER is a package before it is packed. A link of a page in it leads to the package's own file afterwards. If the package doesn't have the
file, the link's text stays, with a word on where the file is; a picture is left out. PAGES has a line for each package: its name and files.
"""
import html
import os
import pathlib
import re
import sys

ROOT = os.path.dirname(os.path.dirname(os.path.dirname(os.path.realpath(__file__))))
# A block or a word of code, which has no links; a link, or a picture.
CODE_OR_LINK = re.compile(r"(?ms:^```\w*\n.*?^```$)|(?P<picture>!?)\[(?P<text>(?:`[^`\n]*`|[^\[\]`])*)\]\((?P<target>[^)\s]+)\)|`[^`\n]*`")


class Faults:
    """Reports what a script finds, a line for each fault, and goes on."""

    def __init__(self, script):
        self.script, self.count = script, 0

    def __call__(self, text):
        self.count += 1
        print(f"{self.script}: {text}", file=sys.stderr, flush=True)


def text_of(file):
    with open(file, encoding="utf-8", errors="replace") as it:
        return it.read()


def plain(text):
    """The text of a page without its fenced blocks."""
    return re.sub(r"(?ms)^```\w*\n.*?^```$", "", text)


def anchors(page):
    """The anchors of a page's headings, as its readers' programs make them."""
    found = []
    for heading in re.findall(r"(?m)^#{1,6} +(.*?) *$", plain(text_of(page))):
        name = re.sub(r"[^\w\- ]", "", re.sub(r"\[([^\]]*)\]\([^)]*\)", r"\1", heading).lower()).replace(" ", "-")
        found.append(name if name not in found else f"{name}-{found.count(name)}")
    return found


def dead_links(page):
    """What is wrong with the relative links of a page: one leads to no file, or its anchor to no heading."""
    text = re.sub(r"`[^`\n]*`", "", plain(text_of(page)))
    for target in re.findall(r"\]\(([^)\s]+)\)", text) + re.findall(r'\b(?:href|src|srcset)="([^"\s]+)', text):
        path, _, anchor = html.unescape(target).partition("#")
        if re.match(r"\w+:", target):
            continue
        file = os.path.normpath(os.path.join(os.path.dirname(page), path)) if path else page
        if not os.path.exists(file):
            yield f"links to {path}, which is not there"
        elif anchor and anchor not in anchors(file):
            yield f"links to {target}, and no heading there has that anchor"


def source_of(place):
    """The file of the repository that stands at a place of a package; None: what stands there is no file of it."""
    rest = re.sub(r"^(usr/)?share/doc/[\w-]+/", "", place)
    return next((it for it in (f"docs/{rest}", rest, re.sub("^src/", "share/", rest)) if os.path.isfile(f"{ROOT}/{it}")), None)


def packed_link(link, source, place, packed, packages):
    """What stands for a link of a source in the page at a place of a package."""
    text, target = link["text"], link["target"]
    if not target or re.match(r"\w+:|#", target):
        return link[0]
    path, mark, anchor = target.partition("#")
    file = os.path.normpath(os.path.join(os.path.dirname(source), path))
    if file in packed:
        ways = (os.path.relpath(it, os.path.dirname(place) or ".") for it in packed[file])
        return f"{link['picture']}[{text}]({min(ways, key=len)}{mark}{anchor})"
    if link["picture"]:
        return ""
    name = os.path.basename(file)
    where = f"{name} of the package {packages[file]}" if file in packages else f"{file} of the sources"
    return where if text in (file, name, name.removesuffix(".md")) else f"{text} ({where})"


def turn_links(folder, pages):
    packages = {file: package for package, *files in map(str.split, reversed(pages.splitlines())) for file in files}
    packed = {}
    for file in sorted(it for it in pathlib.Path(folder).rglob("*") if it.is_file()):
        place = str(file.relative_to(folder))
        packed.setdefault(source_of(place), []).append(place)
    packed.pop(None, None)
    for source, place in [(source, it) for source, places in packed.items() for it in places if it.endswith(".md")]:
        page = pathlib.Path(folder, place)
        page.write_text(CODE_OR_LINK.sub(lambda link: packed_link(link, source, place, packed, packages), text_of(page)), encoding="utf-8")


if __name__ == "__main__":
    turn_links(*sys.argv[1:])

#!/usr/bin/env python3
"""Makes the documents and the manual as pages: site.py FOLDER

README.md, CONTRIBUTING.md, CHANGELOG.md, docs/ and each document that they link, by pandoc; man/ has the manual. Files
that they link besides are copied. Then each link of each page is followed within the folder: what leads nowhere is
printed, and ends it with 1.
"""
import concurrent.futures
import glob
import html
import html.parser
import os
import re
import shutil
import subprocess
import sys

from manual import READER, ROOT, Manual, names_of, read, released

FIRST = ["README.md", "CONTRIBUTING.md", "CHANGELOG.md"]
MENU = [("README.md", "wlim"), ("docs/TOUR.md", "Tour"), ("man/index", "Manual"), ("docs/FORMATS.md", "Formats"),
        ("docs/EMBEDDING.md", "Embedding"), ("gateway/README.md", "Gateway"), ("modules/weston/README.md", "Weston"),
        ("docs/CONFORMANCE.md", "Conformance"), ("docs/CLAIMS.md", "Claims"), ("docs/ARCHITECTURE.md", "Architecture"),
        ("CHANGELOG.md", "Changes")]
LINK = re.compile(r'(href|src)="([^"#]*)(#[^"]*)?"')


def address(path):
    """Where a document stands in the site."""
    return "index.html" if path == "README.md" else re.sub(r"(\.md)?$", ".html", path, count=1)


def links_of(path):
    """The files of the repository that a document links."""
    folder = os.path.dirname(path)
    for target in re.findall(r"\]\(([^)#\s]+)[^)]*\)", read(path)):
        if "://" not in target:
            yield os.path.normpath(os.path.join(folder, target))


def collected():
    """The documents, and the files that they link."""
    left = FIRST + sorted(os.path.relpath(path, ROOT) for path in glob.glob(f"{ROOT}/docs/*.md"))
    documents, files = [], set()
    while left:
        path = left.pop(0)
        if path in documents:
            continue
        documents.append(path)
        for target in links_of(path):
            if os.path.isfile(f"{ROOT}/{target}"):
                (left.append if target.endswith(".md") else files.add)(target)
    return documents, files


def pandoc(text, reader, *flags):
    return subprocess.run(["pandoc", "-f", reader, "-t", "html5", "--no-highlight", "--wrap=none", *flags], input=text,
                          capture_output=True, text=True, check=True).stdout


def contents(body):
    """The headings of a long page, to be opened."""
    found = re.findall(r'<h[23] id="([^"]*)">(.*?)</h[23]>', body, flags=re.S)
    items = "".join(f'<li><a href="#{name}">{re.sub("<.*?>", "", title)}</a></li>' for name, title in found)
    return f"<details><summary>On this page</summary><ul>{items}</ul></details>" if len(found) > 4 else ""


def page(path, title, body):
    """A whole page."""
    up = "../" * address(path).count("/")
    menu = "".join(f'<a href="{up}{address(at)}"{" class=here" if at == path else ""}>{name}</a>'
                   for at, name in MENU if at == "man/index" or os.path.exists(f"{ROOT}/{at}"))
    listed = contents(body)
    if listed and "</h1>" in body:
        body = body.replace("</h1>", f"</h1>{listed}", 1)
    return (f'<!DOCTYPE html>\n<html lang="en">\n<head>\n<meta charset="utf-8">\n<title>{html.escape(title)}</title>\n'
            f'<meta name="viewport" content="width=device-width, initial-scale=1">\n'
            f'<link rel="stylesheet" href="{up}style.css">\n</head>\n<body>\n<header><nav>{menu}</nav></header>\n'
            f"<main>\n{body}</main>\n<footer>wlim {released()[0]}</footer>\n</body>\n</html>\n")


def of_document(path):
    body = pandoc(read(path), "gfm")
    body = LINK.sub(lambda it: f'{it[1]}="{linked(path, it[2])}{it[3] or ""}"', body)
    title = re.search(r"<h1[^>]*>(.*?)</h1>", body, flags=re.S)
    return page(path, re.sub("<.*?>", "", title[1]) if title else path, body)


def linked(path, target):
    """A link of a document, as the site has it."""
    if "://" in target or not target.endswith(".md"):
        return target
    there = os.path.normpath(os.path.join(os.path.dirname(path), target))
    return os.path.relpath(address(there), os.path.dirname(path) or ".")


def of_manual(name, text, known):
    """A page of the manual, in which the names of others are links."""
    body = LINK.sub(lambda it: f'{it[1]}="{linked("man/", it[2])}{it[3] or ""}"', pandoc(text, READER))
    body = re.sub(r'(?<![\w">-])([\w-]+)\(([135])\)',
                  lambda it: f'<a href="{known[it[0]]}.html">{it[0]}</a>' if it[0] in known else it[0], body)
    body = re.sub(r"<(/?)h1\b", r"<\1h2", re.sub(r"<(/?)h2\b", r"<\1h3", body))
    return page(f"man/{name}", f"{name[:-2]}({name[-1]})", f"<h1>{name[:-2]}({name[-1]})</h1>\n{body}")


def index(manual):
    """The list of the manual's pages."""
    told = [(name, re.search(r"# NAME\n\n.*? - (.*?)\n\n", text, flags=re.S)[1]) for name, text in manual.items()]
    told.sort(key=lambda pair: ("153".index(pair[0][-1]), pair[0][:-2]))
    rows = "".join(f'<tr><td><a href="{name}.html">{name[:-2]}({name[-1]})</a></td>'
                   f"<td>{pandoc(said, READER)[3:-5]}</td></tr>\n" for name, said in told)
    return page("man/index", "Manual", f"<h1>Manual</h1>\n<table>\n{rows}</table>\n")


class Links(html.parser.HTMLParser):
    """What a page links, and what can be linked in it."""

    def __init__(self, text):
        super().__init__()
        self.targets, self.names = [], set()
        self.feed(text)

    def handle_starttag(self, tag, attrs):
        for name, value in attrs:
            if name in ("href", "src"):
                self.targets.append(value)
            elif name == "id":
                self.names.add(value)


def broken(to):
    """Each link that leads nowhere, and how many were followed."""
    pages = {os.path.relpath(path, to): Links(open(path, encoding="utf-8").read())
             for path in glob.glob(f"{to}/**/*.html", recursive=True)}
    wrong, count = [], 0
    for path, its in pages.items():
        for target in its.targets:
            if "://" in target:
                continue
            count += 1
            file, _, name = target.partition("#")
            there = os.path.normpath(os.path.join(os.path.dirname(path), file)) if file else path
            good = os.path.isfile(f"{to}/{there}") and (not name or there not in pages or name in pages[there].names)
            wrong += [] if good else [f"{path}: {target} leads nowhere"]
    return wrong, count, len(pages)


def put(to, path, text):
    os.makedirs(os.path.dirname(f"{to}/{path}"), exist_ok=True)
    with open(f"{to}/{path}", "w", encoding="utf-8") as file:
        file.write(text)


def main():
    to = sys.argv[1]
    shutil.rmtree(to, ignore_errors=True)
    documents, files = collected()
    manual = Manual().pages
    known = {f"{other}({name[-1]})": name for name, text in manual.items() for other in names_of(text)}
    with concurrent.futures.ThreadPoolExecutor(os.cpu_count()) as pool:
        made = [(address(path), pool.submit(of_document, path)) for path in documents]
        made += [(f"man/{name}.html", pool.submit(of_manual, name, text, known)) for name, text in manual.items()]
        for path, text in made:
            put(to, path, text.result())
    put(to, "man/index.html", index(manual))
    for file in files:
        os.makedirs(os.path.dirname(f"{to}/{file}"), exist_ok=True)
        shutil.copy(f"{ROOT}/{file}", f"{to}/{file}")
    shutil.copy(f"{ROOT}/packaging/site/style.css", to)
    wrong, count, pages = broken(to)
    for one in wrong:
        print(one)
    print(f"site: {pages} pages, {count} links, {len(wrong)} that lead nowhere")
    return int(bool(wrong))


if __name__ == "__main__":
    sys.exit(main())

"""The pages of libwlim(3), made of include/wlim.h: one for each group of its functions, with what it says of each."""
import re
import textwrap

TITLE = re.compile(r"(?:----|====) (.*?)(?: (?:----|====))?$", flags=re.S)
TOKEN = re.compile(r"/\*.*?\*/|#define \w+ \d+|(?:enum|struct)[ \w]*\{.*?^\};|^\w[^;{}#]*\([^;]*\);", flags=re.S | re.M)
WORD = re.compile(r"\bstruct wlim\w*|\b(?:wlim|wl|zwp)_[a-z]\w*(?:\.\w+)?(?:\.\.)?|\bWLIM_[A-Z_]+\b")
FIRST = "A seat, opened and closed"


def words(comment):
    """The paragraphs of a comment, as Markdown."""
    inner = re.sub(r"^[ \t]*\*(?: |$)", "", comment[2:-2], flags=re.M).strip()
    return [" ".join(part.split()) for part in re.split(r"\n\s*\n", inner) if part.strip()]


def escaped(text):
    return re.sub(r"([\\*_<>\[\]#$^~|])", r"\\\1", text)


def marked(text):
    """A text of a comment, with what it names of C as code, and nothing that Markdown takes for a mark."""
    parts = text.split("`")
    for at in range(0, len(parts), 2):
        names, plain = WORD.findall(parts[at]), WORD.split(parts[at])
        parts[at] = "".join(escaped(one) + (f"`{name}`" if name else "")
                            for one, name in zip(plain, names + [""]))
    return "".join(f"`{part}`" if at % 2 else part for at, part in enumerate(parts))


def indented(paragraphs):
    """Paragraphs as what a definition list says of a term."""
    body = "\n\n".join(textwrap.fill(one, 100) for one in paragraphs)
    return ":   " + textwrap.indent(body, "    ").lstrip()


def members(declaration):
    """The members of a struct or an enum, with what stands behind them; one without stands with the one before."""
    body, found = declaration[declaration.index("{") + 1:declaration.rindex("}")], []
    for member, comment in re.findall(r"^\t(\w[^;,/]*)[;,][ \t]*(/\*.*?\*/)?", body, flags=re.S | re.M):
        if comment or not found:
            found.append(([], words(comment) if comment else []))
        found[-1][0].append(f"`{' '.join(member.split())}`")
    return [", ".join(terms) + ("\n" + indented([marked(one) for one in said]) if said else "")
            for terms, said in found]


def prototype(text):
    """A prototype in lines of at most 72 columns."""
    flat = ",\0".join(" ".join(text.split()).split(", ")).replace(" ", "\1").replace("\0", " ")
    return textwrap.fill(flat, 72, subsequent_indent="    ", break_long_words=False).replace("\1", " ")


def function_of(token):
    found = re.match(r"\w+ (wlim_\w+)\(", token)
    return found[1] if found else None


class Group:
    """A group of functions, with what stands before it."""

    def __init__(self, title, told):
        self.title, self.told, self.parts, self.functions, self.synopsis = title, told, [], [], []

    def add(self, token, said):
        """A declaration and what its comment says."""
        function = function_of(token)
        if function:
            self.functions.append(function)
            self.synopsis.append(prototype(token))
        if token.startswith(("struct", "enum")):
            name = token[:token.index("{")].strip()
            self.parts += [marked(one) for one in said]
            self.parts.append(f"`{name}`:" if name != "enum" else "")
            self.parts += members(token)
        elif said:
            self.parts.append(f"`{' '.join(token.split())}`\n" + indented([marked(one) for one in said]))

    def name(self):
        """The page's: that of its first function, which is no reader of the version."""
        return next(name for name in self.functions if name != "wlim_version")

    def page(self):
        names, title = ", ".join(self.functions), self.title[0].lower() + self.title[1:]
        told = "\n\n".join([marked(one) for one in self.told] + [part for part in self.parts if part])
        synopsis = "\n".join(["#include <wlim.h>", ""] + self.synopsis)
        return (f"# NAME\n\n{escaped(names)} - {escaped(title)}\n\n# SYNOPSIS\n\n```\n{synopsis}\n```\n\n"
                f"# DESCRIPTION\n\n{told}\n\n# SEE ALSO\n\nlibwlim(3)\n")


def groups(header):
    """The first comment of the header, and its groups."""
    tokens = TOKEN.findall(header[:header.rindex("#ifdef __cplusplus")])
    found, said = [Group(FIRST, [])], []
    for token in tokens[1:]:
        if not token.startswith("/*"):
            found[-1].add(token, said)
            said = []
            continue
        if said:
            found[-1].parts += [marked(one) for one in said]
        said = words(token)
        title = TITLE.match(said[0])
        if title:
            name, rest = re.match(r"(.*?)(?:, for who .*|: each (.*))?$", title[1]).groups()
            broker = "By bytes" in [group.title[:8] for group in found]
            name = f"requests of {name}" if name.startswith("zwp_") else f"a broker: {name.lower()}" if broker else name
            found.append(Group(name, [f"Each answers {rest}."] * bool(rest) + said[1:]))
            said = []
    return words(tokens[0]), found


def overview(told, found):
    """libwlim(3): what the library is, its pages, and an example."""
    listed = "\n\n".join(f"{escaped(group.name())}(3)\n:   {marked(group.title)}" for group in found)
    about = "\n\n".join(marked(one) for one in told[1:])
    return (f"# NAME\n\nlibwlim - the text-input and input-method relay of a Wayland seat\n\n# SYNOPSIS\n\n```\n"
            f"#include <wlim.h>\n\ncc program.c $(pkg-config --cflags --libs wlim)\n```\n\n# DESCRIPTION\n\n"
            f"{marked(told[0])}\n\n{about}\n\n# PAGES\n\n{listed}\n\n# EXAMPLES\n\n"
            f"@code examples/libwlim/relay.c\n\n# SEE ALSO\n\nwlim(1), wlim-gateway(1)\n")


def pages(header):
    """Each page, by its name."""
    told, found = groups(header)
    return {"libwlim.3": overview(told, found)} | {f"{group.name()}.3": group.page() for group in found}

"""What crates/wl_proto's sources have of the messages of tools/protocol.txt: see protocol.py.

What else a file has stays as it is: a part is known by the lines around it.
"""
import re
from functools import partial

WIDTH = 100
# Of a kind: its name in table.rt, the type of a field, its word in readers and writers, its value in specs.
KINDS = {
    "uint": ("Uint", "u32", "uint", "word {}"),
    "int": ("Int", "i32", "int", "signed {}"),
    "object": ("Object", "u32", "uint", "word {}"),
    "new_id": ("NewId", "u32", "uint", "word {}"),
    "text": ("Text", "&'a str", "text", "text {}.now"),
    "text?": ("TextOrNull", "Option<&'a str>", "string", "string_value (option_copied {})"),
    "fd": ("Descriptor", "u32", "descriptor", "token {}"),
}
COUNTS = ["nothing", "one", "two", "three", "four", "five"]
PLACES = ["first", "second", "third", "fourth", "fifth"]
# Names of arguments that mean something else where specs and writers bind them.
NAMES_IN_SPECS = {"text": "t", "message": "m", "token": "d", "input_method": "method"}
NAMES_IN_WRITERS = {("GetTextInput", "id"): "field", ("GetInputPopupSurface", "id"): "popup",
                    ("GetInputMethod", "input_method"): "made"}


def snake(name):
    return re.sub(r"(?<!^)([A-Z])", r"_\1", name).lower()


def put(text, start, end, body):
    """The text, with the body between the first `start` and the `end` after it."""
    begin = text.index(start) + len(start)
    return text[:begin] + body + text[text.index(end, begin):]


def filled(names):
    """The names of a `use`, as many on a line as fit, capitals first."""
    lines = [""]
    for name in sorted(names):
        if len(f"    {lines[-1]}{name},") >= WIDTH:
            lines.append("")
        lines[-1] += f"{name}, "
    return "".join(f"    {line.strip()}\n" for line in lines)


def words(message):
    return [KINDS[kind][2] for _, kind in message.arguments]


def either(patterns, indent, most):
    """Alternatives of an arm on one line, where they have at most so many columns there."""
    line = " | ".join(patterns)
    return line if "\n" not in line and len(indent + line) <= most else f"\n{indent}| ".join(patterns)


# Of the sources: enums, names, rows.


def commented(name, comment):
    first, *others = comment or [""]
    return "".join(f"    /// {line}\n" for line in [f"`{name}`{first}", *others])


def variants(messages):
    text = ""
    for message in messages:
        fields = "".join(f"        {name}: {KINDS[kind][1]},\n" for name, kind in message.arguments)
        text += commented(f"{message.interface.protocol}.{message.protocol}", message.comment)
        text += f"    {message.name} {{\n{fields}    }},\n" if fields else f"    {message.name},\n"
    return text


def enum_source(text, table, word):
    return put(text, f"pub enum {word.capitalize()}<'a> {{\n", "}\n", variants(table.messages(word)))


def interface_source(text, table):
    enum = "".join(commented(one.protocol, one.comment or ["."]) + f"    {one.name},\n" for one in table.interfaces)
    arms = "".join(f'            Interface::{one.name} => "{one.protocol}",\n' for one in table.interfaces)
    return put(put(text, "pub enum Interface {\n", "}\n", enum), "        match self {\n", "        }\n", arms)


def constant(interface, word):
    return f"{snake(interface.name).upper()}_{word.upper()}S"


def constants(table):
    return [constant(one, word) for word in ("request", "event") for one in table.interfaces if one.messages[word]]


def rows(interface, word):
    """The constant of an interface's rows."""
    messages = interface.messages[word]
    sigs = [f"sig!({' '.join([str(one.opcode)] + [KINDS[kind][0] for _, kind in one.arguments])})" for one in messages]
    *most, last = [f"`{one.protocol}`" for one in messages]
    listed = f"{', '.join(most)} and {last}" if most else last
    known = f" that {'are' if most else 'is'} known: {listed}" if interface.partly else ""
    line = f"rows: [{', '.join(sigs)}]"
    lines = "".join(f"        {sig},\n" for sig in sigs)
    many = f"\n    rows: [\n{lines}    ],\n"
    body = f" {line} " if len(line) <= 18 else f"\n    {line},\n" if len(line) <= 68 else many
    return (f"/// The {word}{'s' if most else ''} of `{interface.protocol}`{known}.\n"
            f"pub const {constant(interface, word)}: SigTable<{len(sigs)}> = SigTable {{{body}}};\n")


def table_source(text, table):
    made = [rows(one, word) for word in ("request", "event") for one in table.interfaces if one.messages[word]]
    return text[:text.index("/// The request")] + "\n".join(made)


def lib_source(text, table):
    return put(text, "pub use table::{\n", "};\n", filled(constants(table) + ["Kind", "Sig", "SigTable"]))


# Of the readers.


def reader(interface, word, bodies):
    kind = word.capitalize()
    head = f"fn {snake(interface.name)}_{word}<'a>("
    line = f"{head}opcode: u16, body: &'a [u8], tokens: &[u32]) -> Result<{kind}<'a>, Refuse>\n"
    if len(line) > WIDTH + 1:
        line = f"{head}\n    opcode: u16,\n    body: &'a [u8],\n    tokens: &[u32],\n) -> Result<{kind}<'a>, Refuse>\n"
    clause = f"({word}_reading interface.{interface.name} opcode tokens.now body.now) }}\n"
    gives = f"    ensures {{ Gives {word}_message result"
    gives += (" " if len(f"{gives} {clause}") <= WIDTH + 1 else "\n        ") + clause
    arms = ""
    for message in interface.messages[word]:
        named = ", ".join(f"{name}: {one}" for (name, _), one in zip(message.arguments, words(message)))
        row = f"row!(body tokens {kind} {message.name} {{{named and f' {named} '}}}),\n"
        arm = f"        {message.opcode} =>"
        arms += arm + (" " if len(f"{arm} {row}") <= WIDTH + 1 else "\n            ") + row
        if tuple(words(message)) not in bodies:
            raise ValueError(f"no body of the kinds `{' '.join(words(message))}`, as {message.name} has them")
    return (f"#[tactic(auto, unfolding(crate::specs::Reading::{word}_reading))]\n{line}{gives}{{\n    match opcode {{\n"
            f"{arms}        _ => Err(Refuse::Opcode),\n    }}\n}}\n\n")


def reader_of_all(table, word):
    """The arms of the match of interfaces."""
    arms, others = "", []
    for one in table.interfaces:
        if one.messages[word]:
            arms += f"        Interface::{one.name} => {snake(one.name)}_{word}(opcode, body, tokens),\n"
        else:
            others.append(f"Interface::{one.name}")
    none = either(others, "        ", WIDTH - len(" => Err(Refuse::Opcode),"))
    return arms + (f"        {none} => Err(Refuse::Opcode),\n" if others else "")


def reader_source(text, table, word, bodies):
    used = {bodies.get(tuple(words(message))) for message in table.messages(word)} - {None}
    text = put(text, "use crate::bodies::{\n", "};\n", filled({"arguments", "row", *used}))
    readers = "".join(reader(one, word, bodies) for one in table.interfaces if one.messages[word])
    tactic = "#[tactic(auto, "
    of_all = text.rindex(tactic, 0, text.index(f"fn {word}_of<'a>("))
    text = text[:text.index(tactic)] + readers + text[of_all:]
    return put(text, "    match interface {\n", "    }\n", reader_of_all(table, word))


# Of the writers.


def bound(message, names):
    """The pattern of a message that binds fields to these names; those that have none are left out."""
    fields = [name if new == name else f"{name}: {new}"
              for (name, _), new in zip(message.arguments, names) if new]
    fields += [".."] * (len(fields) < len(message.arguments))
    return f"{message.word.capitalize()}::{message.name}", fields


def arm(message, names):
    head, fields = bound(message, names)
    return f"{head} {{ {', '.join(fields)} }}" if fields else head


def size(message):
    """What a length is of: the kinds of the texts, the bytes of all else, the names of texts if there are many."""
    texts = [(name, word) for (name, _), word in zip(message.arguments, words(message)) if word in ("text", "string")]
    others = 8 + 4 * sum(word in ("uint", "int") for word in words(message))
    return tuple(word for _, word in texts), others, tuple(name for name, _ in texts) if len(texts) > 1 else ()


def length_arm(messages):
    kinds, others, _ = size(messages[0])
    texts = [[name for (name, _), word in zip(one.arguments, words(one)) if word in kinds] for one in messages]
    names = texts[0] if all(one == texts[0] for one in texts) else ["text"]
    patterns = []
    for message, own in zip(messages, texts):
        new = dict(zip(own, names))
        head, fields = bound(message, [new.get(name) for name, _ in message.arguments])
        line, lines = ", ".join(fields), "".join(f"            {field},\n" for field in fields).replace("..,", "..")
        patterns.append(head if not fields else f"{head} {{ {line} }}" if len(line) <= 18
                        else f"{head} {{\n{lines}        }}")
    value = " + ".join([f"{kind}_size({name})" for kind, name in zip(kinds, names)] + [str(others)])
    pattern = f"        {either(patterns, '        ', WIDTH - 3)} =>"
    last = pattern.split("\n")[-1]
    return pattern + (" " if len(f"{last} {value},") <= WIDTH else "\n            ") + f"{value},\n"


def grouped(messages, key):
    """The messages in lists of those whose key is the same, in the keys' order."""
    found = {}
    for message in messages:
        found.setdefault(key(message), []).append(message)
    return [found[one] for one in sorted(found)]


def written_name(messages, place):
    """What an argument is named where the rows of these messages are written."""
    names = set()
    for message in messages:
        name = message.arguments[place][0]
        alone = "word" if len(message.arguments) == 1 else "made"
        names.add(NAMES_IN_WRITERS.get((message.name, name), alone if name == "id" else name))
    return names.pop() if len(names) == 1 else "word" if len(messages[0].arguments) == 1 else PLACES[place]


def put_arm(messages):
    first = messages[0]
    names = [written_name(messages, place) for place in range(len(first.arguments))]
    patterns = "\n            | ".join(arm(message, names) for message in messages)
    given = ", ".join(f"{word} {name}" for word, name in zip(words(first), names))
    row = f"put_row!(put_{COUNTS[len(names)]} $out $id {first.opcode}{given and ' ' + given})"
    last = f"            {patterns} => ".split("\n")[-1]
    body = f"{row}," if len(f"{last}{row},") <= WIDTH else f"{{\n                {row}\n            }}"
    return f"            {patterns} => {body}\n"


def put_arms(messages):
    """Rows that are written alike share an arm: first by how many arguments, then by kinds, then by opcodes."""
    kinds = []
    for message in messages:
        if words(message) not in kinds:
            kinds.append(words(message))
    # Requests that have a text come last.
    texts_last = messages[0].word == "request"
    return "".join(map(put_arm, grouped(messages, lambda one: (
        len(one.arguments), texts_last and "text" in words(one), kinds.index(words(one)), one.opcode))))


def writer_source(text, table, word):
    messages = table.messages(word)
    all_words = {one for message in messages for one in words(message)}
    used = {f"put_{COUNTS[len(message.arguments)]}" for message in messages} | {"Argument"}
    used |= {f"{one}_argument" for one in all_words & {"int", "text", "string"}}
    used |= {f"{one}_size" for one in all_words & {"text", "string"}}
    text = put(text, "use crate::argument::{\n", "};\n", filled(used))
    text = put(text, f"    match *{word} {{\n", "    }\n}\n", "".join(map(length_arm, grouped(messages, size))))
    return put(text, f"        match *${word} {{\n", "        }\n    };\n", put_arms(messages))


# Of the specs, and the proof that each message has a row.


def listed(text, path, names):
    return put(text, f"use Rattle.wl_proto.specs.declared.{path}.{{", "}\n", ", ".join(names))


def equations(text, function, of, lines):
    """The text with these lines below the type of the function."""
    start = re.search(rf"pub {function} : {of}.*\n", text).end()
    end = text.find("\n\n", start)
    return text[:start] + "".join(f"{line}\n" for line in lines) + (text[end + 1:] if end >= 0 else "")


def variables(message):
    return [NAMES_IN_SPECS.get(name, name) for name, _ in message.arguments]


def left(function, message):
    value = f"{message.word}.{message.name}"
    return f"{function} ({' '.join([value] + variables(message))}) =" if message.arguments else f"{function} {value} ="


def message_of(message):
    """The equation of a message's row and values."""
    values = [KINDS[kind][3].format(name) for name, (_, kind) in zip(variables(message), message.arguments)]
    given = f"({' ∷ '.join(values)} ∷ [])" if values else "[]"
    head, row = left(f"{message.word}_message", message), f"message {message.interface.name} {message.opcode}"
    for line in (f"{head} {row} {given}", f"{head}\n    {row} {given}"):
        if len(line.split("\n")[-1]) <= WIDTH:
            return line
    return f"{head}\n    {row}\n    {given}"


def rows_spec(text, table):
    text = listed(text, "interface.Interface.TheVariants", [one.name for one in table.interfaces])
    text = listed(text, "table.TheConstants", constants(table))
    for word in ("request", "event"):
        of_interface = [f"{word}_rows {one.name} = " + (f"{constant(one, word)}.rows" if one.messages[word] else "[]")
                        for one in table.interfaces]
        text = equations(text, f"{word}_rows", "Interface", of_interface)
        text = equations(text, f"{word}_message", word.capitalize(), map(message_of, table.messages(word)))
    return text


def names_spec(text, table):
    text = listed(text, "interface.Interface.TheVariants", [one.name for one in table.interfaces])
    names = [f'name_of {one.name} = codes "{one.protocol}"' for one in table.interfaces]
    return equations(text, "name_of", "Interface", names)


def has_row(message):
    """The equation of the proof that a message has a row: each of its values has its kind."""
    proofs = "tt"
    for name, (_, kind) in reversed(list(zip(variables(message), message.arguments))):
        proofs = f"({f'string_kind (option_copied {name})' if kind == 'text?' else 'tt'}, {proofs})"
    return f"{left(f'each_{message.word}', message)} (_, refl, {proofs})"


def rows_proof(text, table):
    text = listed(text, "interface.Interface.TheVariants", [one.name for one in table.interfaces])
    for word in ("request", "event"):
        text = equations(text, f"each_{word}", r"\(", map(has_row, table.messages(word)))
        rise = [f"{word}s_rise {one.name} = rises-increasing (opcodes ({word}_rows {one.name})) refl"
                for one in table.interfaces]
        text = equations(text, f"{word}s_rise", "Rise", rise)
    return text


def bodies(text):
    """The function of each body of bodies.rt, by the words of its kinds."""
    return {tuple(kinds.split()): name for kinds, name in re.findall(r"tokens:ident([\w ]*)\) => {\s*(\w+)\(", text)}


def makers(bodies_source):
    """What makes each file of crates/wl_proto of its text and the table."""
    found = {"src/interface.rt": interface_source, "src/table.rt": table_source, "src/lib.rt": lib_source,
             "specs/Rows.antt": rows_spec, "specs/Names.antt": names_spec, "proofs/EachRow.antt": rows_proof}
    for word in ("request", "event"):
        found[f"src/{word}.rt"] = partial(enum_source, word=word)
        found[f"src/{word}_reader.rt"] = partial(reader_source, word=word, bodies=bodies(bodies_source))
        found[f"src/{word}_writer.rt"] = partial(writer_source, word=word)
    return found

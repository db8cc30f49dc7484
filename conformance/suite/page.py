"""Several compositors' results side by side: page.py FILE.json.. writes a page, with --table a table for a document."""
import html
import json
import sys

STYLE = """body{font:15px/1.45 sans-serif;margin:2em auto;max-width:72em;padding:0 1em;color:#222}
table{border-collapse:collapse;width:100%}
th,td{border:1px solid #ccc;padding:.3em .5em;text-align:left;vertical-align:top}
th{background:#f3f3f3}tr.family td{background:#e8ecf4;font-weight:bold}
.passed{background:#e5f5e5}.skipped{background:#f4f4f4;
color:#666}.light{background:#fff7d6}.serious{background:#ffe3c2}.grave{background:#ffcfcf}details{margin:.2em 0}
summary{cursor:pointer}pre{font:12px/1.4 monospace;white-space:pre-wrap;margin:.3em 0}.says{color:#555;font-size:90%}
.owed{color:#06602a}.told{color:#333}.other{color:#a00;font-weight:bold}"""


def read(paths):
    runs = []
    for path in paths:
        with open(path, encoding="utf-8") as file:
            runs.append(json.load(file))
    return runs


def rows_of(runs):
    """The scenarios by family, in the first run's order, each with its result at each compositor or None."""
    names = {}
    for run in runs:
        for row in run["scenarios"]:
            names.setdefault((row["family"], row["name"]), row["says"])
    found = [{(row["family"], row["name"]): row for row in run["scenarios"]} for run in runs]
    return [
        (family, name, says, [rows.get((family, name)) for rows in found]) for (family, name), says in names.items()
    ]


def grave(row):
    return row["faults"][0]["grave"] if row and row["result"] == "failed" else row["result"] if row else "skipped"


# ---- The page ----


def messages(row):
    """The steps with what each object was told, and owed where that isn't the same."""
    lines, bad = [], {(fault["step"], fault["object"]) for fault in row["faults"]}
    for at, step in enumerate(row.get("steps", [])):
        lines.append(f"<b>{html.escape(step['line'])}</b>")
        for told in step["told"]:
            kind = "other" if (at, told[0]) in bad else "told"
            lines.append(f'  <span class="{kind}">{html.escape(" ".join(told))}</span>')
        lines += [
            f'  <span class="owed">owed: {html.escape(" ".join(told))}</span>'
            for told in step["owed"]
            if (at, told[0]) in bad
        ]
        lines += [f'  <span class="other">{html.escape(" ".join(ended))}</span>' for ended in step["ended"]]
    return "<pre>" + "\n".join(lines) + "</pre>" if lines else ""


def cell(row):
    kind = grave(row)
    if row is None or row["result"] == "skipped":
        return f'<td class="skipped">{html.escape(row["why"] if row else "not played")}</td>'
    if row["result"] == "passed":
        by = f"by the protocol's reading: {row['reading']}" if row["reading"] else row["why"]
        return f'<td class="passed">passed<div class="says">{html.escape(by)}</div></td>'
    faults = "".join(
        f"<p><b>{fault['grave']}</b>, at <i>{html.escape(fault['line'])}</i>: {html.escape(fault['did'])}.<br>"
        f"The rule: {html.escape(fault['rule'])}<br>A user sees: {html.escape(fault['user'])}.</p>"
        for fault in row["faults"]
    )
    return (
        f'<td class="{kind}"><details><summary>{kind}: {html.escape(row["faults"][0]["did"])}</summary>{faults}'
        f"{messages(row)}</details></td>"
    )


def page(runs):
    head = "".join(
        f"<th>{html.escape(run['compositor'])}<br>{run['passed']} passed, {run['failed']} failed, "
        f"{run['skipped']} skipped</th>"
        for run in runs
    )
    body, family = [], None
    for of, name, says, rows in rows_of(runs):
        if of != family:
            family = of
            body.append(f'<tr class="family"><td colspan="{len(runs) + 1}">{html.escape(family)}</td></tr>')
        body.append(
            f'<tr><td>{html.escape(name)}<div class="says">{html.escape(says)}</div></td>'
            + "".join(map(cell, rows))
            + "</tr>"
        )
    return (
        f"<!DOCTYPE html><meta charset=utf-8><title>Which text reaches which field</title><style>{STYLE}</style>"
        "<h1>Which text reaches which field</h1><p>Scenarios of text inputs and input methods, played by clients at "
        "each compositor. What each client was owed is what the proved rules say; a click on a fault shows its "
        "messages.</p>"
        f"<table><tr><th>scenario</th>{head}</tr>{''.join(body)}</table>\n"
    )


# ---- The table ----


def counts(rows):
    """What stands in a table's cell: how many passed; of the others how many are grave; how many were skipped."""
    results = [grave(row) for row in rows]
    passed, bad, skipped = (results.count(kind) for kind in ("passed", "grave", "skipped"))
    return f"{passed}" + (f" ({bad})" if bad else "") + (f", -{skipped}" if skipped else "")


def table(runs):
    families, rows = {}, rows_of(runs)
    for family, _, _, results in rows:
        families.setdefault(family, []).append(results)
    lines = [
        "| family, scenarios | " + " | ".join(run["compositor"] for run in runs) + " |",
        "|---" * (len(runs) + 1) + "|",
    ]
    for family, results in families.items():
        lines.append(
            f"| {family}, {len(results)} | "
            + " | ".join(counts([row[at] for row in results]) for at in range(len(runs)))
            + " |"
        )
    apart = [sum(bool(row["reading"]) for row in run["scenarios"]) for run in runs]
    lines.append("| of these by a protocol's sentence from which wlim departs | " + " | ".join(map(str, apart)) + " |")
    lines.append(
        f"| all, {len(rows)} | " + " | ".join(counts([row[3][at] for row in rows]) for at in range(len(runs))) + " |"
    )
    return "\n".join(lines) + "\n"


def main(words):
    runs = read([word for word in words if not word.startswith("--")])
    sys.stdout.write(table(runs) if "--table" in words else page(runs))
    return 0


if __name__ == "__main__":
    sys.exit(main(sys.argv[1:]))

"""What a run found: lines, JSON, JUnit."""
import json
import xml.etree.ElementTree as tree

PASSED, FAILED, SKIPPED = "passed", "failed", "skipped"


class Result:
    """What came of a scenario. `reading` names what it passed by, where that departs from wlim's two rules."""

    def __init__(self, scenario, result, why="", faults=(), reading="", trace=None, owed=None):
        self.scenario, self.result, self.why, self.faults, self.reading = scenario, result, why, list(faults), reading
        self.trace, self.owed = trace, owed

    def line(self):
        text = f"{self.result} {self.scenario.family}: {self.scenario.name}"
        if self.result == FAILED:
            return f"{text}\n       {self.faults[0].line()}"
        if self.reading:
            return f"{text} (by the protocol's reading: {self.reading})"
        return f"{text} ({self.why})" if self.why else text

    def as_dict(self):
        found = {
            "family": self.scenario.family,
            "name": self.scenario.name,
            "says": self.scenario.says,
            "result": self.result,
            "why": self.why,
            "reading": self.reading,
            "faults": [fault.as_dict(self.trace) for fault in self.faults],
        }
        if self.trace and self.result == FAILED:
            found["steps"] = [
                {
                    "line": step["line"],
                    "told": [[to, event, *words] for _, to, event, words in step["told"]],
                    "owed": [[to or "nobody", event, *words] for to, event, words in owed],
                    "ended": step["ended"],
                }
                for step, owed in zip(self.trace.steps, self.owed.told)
            ]
            found["acts"] = self.owed.lines
        return found


def counted(results):
    return [sum(result.result == kind for result in results) for kind in (PASSED, FAILED, SKIPPED)]


def summary(results):
    return "{} passed, {} failed, {} skipped".format(*counted(results))


def write_json(path, compositor, results):
    passed, failed, skipped = counted(results)
    with open(path, "w", encoding="utf-8") as file:
        json.dump(
            {
                "compositor": compositor,
                "passed": passed,
                "failed": failed,
                "skipped": skipped,
                "scenarios": [result.as_dict() for result in results],
            },
            file,
            indent=1,
        )


def write_junit(path, compositor, results):
    passed, failed, skipped = counted(results)
    suite = tree.Element(
        "testsuite", name=compositor, tests=str(len(results)), failures=str(failed), skipped=str(skipped)
    )
    for result in results:
        case = tree.SubElement(suite, "testcase", classname=result.scenario.family, name=result.scenario.name)
        if result.result == FAILED:
            fault = result.faults[0]
            tree.SubElement(case, "failure", message=fault.line()).text = "\n".join(
                f"{fault.rule} {fault.line()}" for fault in result.faults
            )
        elif result.result == SKIPPED:
            tree.SubElement(case, "skipped", message=result.why)
    tree.ElementTree(suite).write(path, encoding="utf-8", xml_declaration=True)

#!/usr/bin/env python3
"""Reads the SARIF of tools/p21-where back by the classes that Debian's package python3-sarif-python-om has, which are made of the
published schema of SARIF 2.1.0: each object has the properties that it must have, and none that the schema doesn't know.

Without that package the part is skipped. P21 names another program than ./p21.
"""

import json
import re
import sys

import needs
from tooling import ROOT, SCHEMA, Tests

try:
    import sarif_om
except ImportError:
    # Where Debian keeps it for a Python that isn't Debian's.
    sys.path.append("/usr/lib/python3/dist-packages")
    try:
        import sarif_om
    except ImportError:
        sarif_om = None

# The class of the object, or of the objects of the list, that a property holds; by the class that the property is of.
INSIDE = {
    ("SarifLog", "runs"): "Run",
    ("Run", "tool"): "Tool",
    ("Run", "invocations"): "Invocation",
    ("Run", "results"): "Result",
    ("Tool", "driver"): "ToolComponent",
    ("ToolComponent", "rules"): "ReportingDescriptor",
    ("ReportingDescriptor", "shortDescription"): "MultiformatMessageString",
    ("ReportingDescriptor", "fullDescription"): "MultiformatMessageString",
    ("ReportingDescriptor", "help"): "MultiformatMessageString",
    ("ReportingDescriptor", "defaultConfiguration"): "ReportingConfiguration",
    ("Invocation", "toolExecutionNotifications"): "Notification",
    ("Notification", "message"): "Message",
    ("Notification", "locations"): "Location",
    ("Result", "message"): "Message",
    ("Result", "locations"): "Location",
    ("Location", "physicalLocation"): "PhysicalLocation",
    ("Location", "logicalLocations"): "LogicalLocation",
    ("PhysicalLocation", "artifactLocation"): "ArtifactLocation",
    ("PhysicalLocation", "region"): "Region",
}


def read(kind, value):
    """An object of a class, and all that it holds. It can't be made without what it must have, or with what is unknown."""
    made = getattr(sarif_om, kind)
    names = {attribute.metadata["schema_property_name"]: attribute.name for attribute in made.__attrs_attrs__}
    unknown = sorted(set(value) - set(names))
    assert not unknown, f"{kind} has no {unknown}"
    fields = {}
    for name, held in value.items():
        inside = INSIDE.get((kind, name))
        if isinstance(held, dict) and inside:
            held = read(inside, held)
        elif isinstance(held, list) and held and isinstance(held[0], dict):
            held = [read(INSIDE[kind, name], element) for element in held]
        fields[names[name]] = held
    return made(**fields)


def main():
    if sarif_om is None:
        needs.skipped("there is no sarif_om, which Debian has in python3-sarif-python-om")
    tests = Tests("p21-where")
    files = ["examples/refused", "examples/product.step", f"{tests.here}/none"]
    output, _, status = tests.run(["--most", "9", "--format", "sarif", SCHEMA, *files])
    cut = read("SarifLog", json.loads(output)).runs[0]
    told = [told.message.text.partition(" of ")[0] for told in cut.invocations[0].tool_execution_notifications]
    tests.judge("a part of the refusals", (9, ["cannot open", "9"]), (len(cut.results), [text[: len("cannot open")] for text in told]))
    output, _, status = tests.run(["--format", "sarif", SCHEMA, *files])
    log = read("SarifLog", json.loads(output))
    run = log.runs[0]
    tests.judge("the version", ("2.1.0", 3), (log.version, status))
    regions = [result.locations[0].physical_location.region for result in run.results]
    tests.judge("ten refusals, each with a place", (10, True), (len(regions), all(at.start_line > 0 and at.start_column > 0 for at in regions)))
    rules = run.tool.driver.rules
    tests.judge("their rules", [result.rule_id for result in run.results], [rules[result.rule_index].id for result in run.results])
    # The titles of docs/FAULTS.md name each refusal.
    titles = re.findall(r"^### (S?\d+) (\w+)$", (ROOT / "docs" / "FAULTS.md").read_text(), re.M)
    known = {number: f"{number} {name}" for number, name in titles}
    tests.judge("rules without a help in both forms", [], [rule.id for rule in rules if not (rule.help.text and rule.help.markdown)])
    tests.judge("counts by rule", {known[rule.id]: 1 for rule in rules}, run.properties["refusals"]["byRule"])
    tests.judge("counts", (10, 10, True), tuple(run.properties["refusals"][key] for key in ("found", "listed", "allLookedFor")))
    told = run.invocations[0].tool_execution_notifications[0].message.text
    tests.judge("what can't be read", f"cannot open {tests.here}/none: there is no such file", told)
    wrong = json.loads(output)
    del wrong["runs"][0]["results"][0]["message"]
    for name, text in (("a result without its message", wrong), ("an unknown property", {**json.loads(output), "rans": []})):
        try:
            read("SarifLog", text)
            tests.judge(name, "refused", "read")
        except (AssertionError, TypeError):
            tests.judge(name, "refused", "refused")
    tests.end()


if __name__ == "__main__":
    main()

"""Unit tests of sarif.py.

`LOG` has what SARIF 2.1.0 requires of the objects that sarif.py writes. It was written from what
the standard's sections say, which are named beside each, and wasn't compared with the published
JSON schema, which isn't in this repository.
"""
import json
import unittest

import beside
from beside import InFolder, needs_program, program

import sarif
import schema


def has(required, **properties):
    """An object with these properties and no others."""
    return {
        "type": "object",
        "required": required.split(" ") if required else [],
        "properties": properties,
        "additionalProperties": False,
    }


def many(item, least=0):
    return {"type": "array", "items": item, "minItems": least}


TEXT = {"type": "string"}
# 3.11: text, unless it has an id; 3.12 of a rule's texts; 3.11.6: a bracket that begins no link
MESSAGE = has("text", text={"type": "string", "pattern": r"^(?:[^][\\]|\\.)*$"})
FILE = has("uri", uri={"type": "string", "pattern": "^[!-~]+$"})  # 3.4.3: a URI reference
REGION = has("startLine", startLine={"type": "integer", "minimum": 1})  # 3.30.5
LOCATION = has(  # 3.28
    "",
    physicalLocation=has("artifactLocation", artifactLocation=FILE, region=REGION),  # 3.29.3
    logicalLocations=many(has("name", name=TEXT, kind={"enum": ["function"]})),  # 3.33
    message=MESSAGE,
)
FLOW = has("locations", locations=many(has("location", location=LOCATION), 1))  # 3.37.6, 3.38.3
RESULT = has(  # 3.27.11 requires message
    "ruleId level message locations",
    ruleId=TEXT,
    level={"enum": ["none", "note", "warning", "error"]},  # 3.27.10
    message=MESSAGE,
    locations=many(LOCATION, 1),
    partialFingerprints={"type": "object"},  # 3.27.17
    codeFlows=many(has("threadFlows", threadFlows=many(FLOW, 1)), 1),  # 3.36.3
)
RULE = has("id", id=TEXT, shortDescription=MESSAGE, help=MESSAGE)  # 3.49.3
DRIVER = has("name", name=TEXT, rules=many(RULE))  # 3.19.8
INVOCATION = has(  # 3.20.14
    "executionSuccessful",
    commandLine=TEXT,
    exitCode={"type": "integer"},
    executionSuccessful={"enum": [True, False]},
)
RUN = has(  # 3.14.6
    "tool results",
    tool=has("driver", driver=DRIVER),  # 3.18.2
    invocations=many(INVOCATION),
    results=many(RESULT),
    properties={"type": "object"},
)
LOG = has(  # 3.13.2, 3.13.4
    "version runs", **{"$schema": TEXT, "version": {"enum": ["2.1.0"]}, "runs": many(RUN, 1)}
)


@needs_program
class Logs(InFolder):
    def log(self, status, *words):
        """The one run of the text that sarif.py prints."""
        done = self.script("sarif.py", *words)
        self.assertEqual((done.returncode, done.stderr), (status, ""), done.stdout)
        text = json.loads(done.stdout)
        self.assertEqual(schema.faults(LOG, text), [])
        rules = [rule["id"] for rule in text["runs"][0]["tool"]["driver"]["rules"]]
        self.assertEqual([result["ruleId"] for result in text["runs"][0]["results"]], rules)
        return text["runs"][0]

    def shipped(self, sources, status=1):
        files = ("board.json", "board.layout", "firmware.elf", "firmware.cert")
        return self.log(status, "--", program(), "ship", *files, *sources)

    def test_a_ring(self):
        run = self.shipped(self.example("nested_interrupts", "broken"))
        (result,) = run["results"]
        place = result["locations"][0]["physicalLocation"]
        self.assertEqual(place["artifactLocation"]["uri"], "handlers.s")
        self.assertEqual(result["ruleId"], "K14")
        steps = result["codeFlows"][0]["threadFlows"][0]["locations"]
        self.assertIn("interrupt 10 comes", [each["location"]["message"]["text"] for each in steps])
        self.assertTrue(run["properties"]["printed"].startswith("refused K14 at "))

    def test_a_fingerprint_stays_if_lines_move(self):
        sources = self.example("nested_interrupts", "broken")
        before = self.shipped(sources)["results"][0]
        text = (self.folder / sources[0]).read_text()
        self.put(sources[0], "# a line more\n" + text.replace("main:", "main: nop\n    nop\n", 1))
        after = self.shipped(sources)["results"][0]
        self.assertEqual(before["partialFingerprints"], after["partialFingerprints"])

    def test_brackets_of_instructions(self):
        sources = self.example("two_tasks", "broken_load")
        self.linked(sources)
        words = ("taskcert", "firmware.elf", "board.json", "board.tasks", "a.cert", "b.cert")
        run = self.log(1, "board.layout", *sources, "--", program(), *words)
        flow = run["results"][0]["codeFlows"][0]["threadFlows"][0]["locations"]
        texts = [each["location"]["message"]["text"] for each in flow]
        self.assertTrue(any(r", \[a" in text for text in texts), texts)

    def test_done(self):
        run = self.shipped(self.example("one_call"), 0)
        self.assertEqual(run["results"], [])
        self.assertTrue(run["invocations"][0]["executionSuccessful"])

    def test_a_bad_source(self):
        self.example("one_call")
        source = self.put("grün 1.s", ".section text\nmul d0\n")
        run = self.log(2, "--", program(), "asm", source, "x.o")
        place = run["results"][0]["locations"][0]["physicalLocation"]
        self.assertEqual(place["artifactLocation"]["uri"], "gr%C3%BCn%201.s")
        self.assertEqual(place["region"], {"startLine": 2})
        self.assertFalse(run["invocations"][0]["executionSuccessful"])

    def test_without_sources_the_place_is_a_file(self):
        self.linked(self.example("nested_interrupts", "broken"))
        run = self.log(1, "--", program(), "cert", "firmware.elf", "board.json", "x.cert")
        place = run["results"][0]["locations"][0]["physicalLocation"]
        self.assertEqual(place["artifactLocation"]["uri"], "firmware.elf")


class Places(unittest.TestCase):
    def test_uri(self):
        self.assertEqual(sarif.uri("a b/c%.s"), "a%20b/c%25.s")
        self.assertTrue(sarif.uri("/a/b.s").startswith("file:///"))


if __name__ == "__main__":
    unittest.main()

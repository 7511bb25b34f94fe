"""tools/reading_tests.py: the tests of what reads the sources and the built programs (loops.py, stack, failing_calls.py), for tools/own_tests."""
import importlib.machinery
import importlib.util
import os
import shutil
import subprocess
import tempfile
import unittest

import loops
from failing_calls import Elf, Run
from source_text import leads_to

TOOLS = os.path.dirname(os.path.realpath(__file__))
LOOPING = """impl Shared {
    /// Counts rows.
    fn count(&self, from: u32) -> u32
        ensures { result ≡ from }
    {
        let rows = self.places.rows();
        let mut row = from;
        while row < rows {
            row += 1;
        }
        for place in 1..rows {
            self.look(place);
        }
        row
    }
}

fn dig(depth: u64) -> u64 {
    down(depth)
}

fn down(depth: u64) -> u64 {
    dig(depth - 1)
}
"""
CODE = """0000000000001000 <covetrivet_read>:
    1000:\tpush   %rbx
    1001:\tsub    $0x20,%rsp
    1005:\tcall   1100 <tp::status_again>
    100a:\tjne    1200 <tp::tail>

0000000000001100 <tp::status_again>:
    1100:\tsub    $0x18,%rsp
    1104:\tcall   1100 <tp::status_again>
    1109:\tret

0000000000001200 <tp::tail>:
    1200:\tsub    $0x1000,%rsp
    1207:\tjmp    1200 <tp::tail+0x7>
"""
KEEPS = """#include <stdlib.h>
#include <string.h>
int main(int words, char **word) {
  char *a = malloc(5), *b = malloc(words > 1 ? 7 : 6);
  if (!a || !b) return 1;
  a = realloc(a, 50);
  memset(b, 1, 3);
  free(a);
  free(NULL);
  if (words > 1) free(b);
  return 0;
}
"""


def stack():
    loader = importlib.machinery.SourceFileLoader("stack", f"{TOOLS}/stack")
    module = importlib.util.module_from_spec(importlib.util.spec_from_loader("stack", loader))
    loader.exec_module(module)
    return module


class Loops(unittest.TestCase):
    def rows(self, text=LOOPING):
        return list(loops.loops("tp_manager/src/count.rt", text))

    def test_a_loop_is_told_with_its_names(self):
        first, second = self.rows()
        self.assertEqual(first[0], "`count.rt` `Shared.count`")
        self.assertRegex(first[1], r"^`while row < rows \{`, `let mut row = from;`, `let rows = self\.places\.rows\(\);` [0-9a-f]{8}$")
        self.assertEqual(second[1], "`for place in 1..rows {`, `let rows = self.places.rows();`")

    def test_what_changes_how_far_it_goes_changes_the_row(self):
        for old, new in ("row += 1;", "row += self.step();"), ("let rows = self", "let rows = 1000 * self"), ("1..rows", "1..2"), ("fn count", "fn other"):
            self.assertNotEqual(self.rows(), self.rows(LOOPING.replace(old, new)))
        self.assertEqual(self.rows(), self.rows(LOOPING.replace("/// Counts rows.", "/// Looks.").replace("result ≡ from", "true")))

    def test_a_range_that_a_method_goes_over_is_a_loop(self):
        self.assertEqual(len(self.rows(LOOPING.replace("row += 1;", "row += 1;\n            let _ = (0..9).any(|n| n > 8);"))), 3)

    def test_calls_that_lead_back(self):
        self.assertEqual(list(loops.circles({"tp_rule/src/dig.rt": LOOPING}, ("tp_rule",))), [frozenset({"dig", "down"})])
        self.assertEqual(list(leads_to("manager.read(pass)", "b", None, {"read": {("a", "Manager"), ("b", "Desk")}}, ("a", "b"))), [("Manager", "read")])

    def test_a_page_is_read(self):
        page = "## tp_rule\n\n| `a.rt` `f` | `for x in xs.iter().map(\\|x\\| x) {` | rows |\n\n## Calls\n\n| `dig` `down` | passes |\n"
        found, circles = loops.listed(page)
        self.assertEqual(found, {"tp_rule": [("`a.rt` `f`", "`for x in xs.iter().map(\\|x\\| x) {`", "rows")]})
        self.assertEqual(circles, {frozenset({"dig", "down"}): "passes"})


class Stack(unittest.TestCase):
    def test_frames_add_up_over_calls(self):
        tool = stack()
        found = tool.functions(CODE)
        taken, way, wrong = tool.deepest(found, "covetrivet_read")
        # (the tail's frame: behind it nothing returns here, and yet it counts)
        self.assertEqual((taken, way[:2], wrong), (8 + 8 + 32 + max(31 * (8 + 24), 8 + 4096), ["covetrivet_read", "tp::tail"], set()))

    def test_what_is_not_known_is_told(self):
        tool = stack()
        for old, new in ("<tp::status_again>:", "<tp::digs>:"), ("call   1100 <tp::status_again>\n    100a", "call   *0x28(%rax)\n    100a"), ("$0x1000", "%rax"):
            text = CODE.replace(old, new) if "digs" not in new else CODE.replace("tp::status_again", "tp::digs")
            self.assertTrue(tool.deepest(tool.functions(text), "covetrivet_read")[2])


class Memory(unittest.TestCase):
    @unittest.skipUnless(shutil.which("cc"), "cc isn't there")
    def test_what_is_kept_to_the_end_is_counted(self):
        with tempfile.TemporaryDirectory() as room:
            with open(f"{room}/keeps.c", "w", encoding="utf-8") as it:
                it.write(KEEPS)
            subprocess.run(["cc", "-O0", "-fno-builtin", "-o", f"{room}/keeps", f"{room}/keeps.c"], check=True)
            elf = Elf(f"{room}/keeps")
            held = [Run(f"{room}/keeps", elf, b"", lambda kind, number: None, words) for words in ((), ("all",))]
            self.assertEqual([(it.status, it.held) for it in held], [(0, 1), (0, 0)])
            lacks = Run(f"{room}/keeps", elf, b"", lambda kind, number: 0 if number == 1 else None)
            self.assertEqual((lacks.status, lacks.held), (1, 1))

from types import SimpleNamespace
from unittest import mock

import large
from tests import InFolder

# Counts the bytes of a body as operators, except two; accepts modules.
COUNTS = "#!/bin/sh\n[ -z \"$1\" ] || exit 0\nsize=$(wc -c)\nyes '1 Nop' | head -n $((size - 1))\n"
REFUSES = "#!/bin/sh\ncat > /dev/null\necho 'error at 0: no' >&2\nexit 1\n"


class Large(InFolder):
    def faults(self, script, name):
        """Returns what is wrong with a program that lists a small body, or validates a module."""
        program, (make, _, wanted) = self.program(script), large.BODIES[name]
        with mock.patch("builtins.print"), mock.patch.object(large, "LIBRARY", self.folder / "none"):
            with mock.patch.dict(large.BODIES, {name: (make, 1000, wanted)}, clear=True):
                (listed,) = large.large_bodies(program, self.folder)
            (validated,) = large.large_modules(program, ["nested"], self.folder)
        return listed, validated

    def test_outputs(self):
        self.assertEqual(self.faults(COUNTS, "nops"), ([], []))
        listed, _ = self.faults(COUNTS, "nested")
        text = "listed: nested: {}: (0, '', {}); expected (0, '', {})"
        self.assertEqual(listed, [text.format(n, 3 * n + 1, 2 * n + 1) for n in (500, 1000)])
        listed, validated = self.faults(REFUSES, "nops")
        self.assertEqual((len(listed), len(validated)), (2, 2))

    def test_growth(self):
        used = lambda seconds, memory: SimpleNamespace(seconds=seconds, memory=memory)
        self.assertEqual(large.growth(used(2.0, 40000), used(1.0, 20000)), [])
        self.assertEqual(len(large.growth(used(4.0, 90000), used(1.0, 20000))), 2)

"""The package on plain values: answers are the archive's, and refusals are exceptions."""

import ctypes
import doctest
import os
import re
import subprocess
import unittest

import ramyearly
from ramyearly import archive
from support import PLAN, PRICES, ROOT, InFolder, write

T = [(2, 10), (4, 20)]
TWO_JOBS = [(0, 4, 6), (2, 3, 4)]


class Answers(unittest.TestCase):
    def test_document_01(self):
        planned = ramyearly.plan(T, TWO_JOBS)
        self.assertEqual(planned.energy, 2200)
        self.assertEqual(planned.steps, [(0, 0, 4), (1, 1, 4), (2, 0, 2)])
        self.assertEqual(planned.spans, [(0, 2), (2, 3), (3, 4)])
        self.assertEqual(planned.prices, [(2, 1), (3, 2), (4, 1)])
        self.assertEqual(planned.shares, [[4, 0], [0, 4], [2, 0]])
        self.assertEqual((planned.plan_bytes, planned.price_bytes), (PLAN, PRICES))

    def test_no_jobs(self):
        planned = ramyearly.plan(T, [])
        self.assertEqual((planned.energy, planned.steps, planned.spans, planned.shares), (0, [], [], []))
        self.assertEqual(ramyearly.check(T, [], [], []), 0)

    def test_check(self):
        planned = ramyearly.plan(T, TWO_JOBS)
        self.assertEqual(ramyearly.check(T, TWO_JOBS, planned.steps, planned.prices), 2200)
        self.assertEqual(ramyearly.check(T, TWO_JOBS, planned.steps[::-1], planned.prices), 2200)

    def test_setting(self):
        self.assertEqual(ramyearly.setting(T, 3, 7), (2, 1, 2))
        self.assertEqual(ramyearly.setting(T, 3, 12), (2, 6, 2))
        self.assertEqual(ramyearly.setting(T, 3, 0), (0, 0, 0))
        self.assertEqual(ramyearly.setting([(300, 90), (400, 100), (533, 110)], 1, 401), (3, 1, 133))

    def test_spare(self):
        self.assertEqual(ramyearly.spare(T, [(0, 1, 4)], 0, 1), 0)
        self.assertEqual(ramyearly.spare(T, [(0, 1, 5)], 0, 1), -1)
        self.assertEqual(ramyearly.spare(T, [(0, 2, 4)] * 3, 0, 2), -4)
        self.assertEqual(ramyearly.spare([(1, 1)], [(0, 1, 10**9)] * 64, 0, 1), 1 - 64 * 10**9)

    def test_the_largest_site(self):
        """64 jobs over 127 intervals: the buffers are as long as the archive asks for."""
        jobs = [(number, 128 - number, 1 + number) for number in range(64)]
        planned = ramyearly.plan([(n, 10 * n) for n in range(40, 48)], jobs)
        self.assertEqual(len(planned.spans), 127)
        self.assertEqual([sum(column) for column in zip(*planned.shares)], [cycles for _, _, cycles in jobs])
        self.assertEqual(ramyearly.check([(n, 10 * n) for n in range(40, 48)], jobs, planned.steps, planned.prices), planned.energy)

    def test_the_package_says_what_it_does(self):
        self.assertEqual(doctest.testmod(ramyearly).failed, 0)


class Refusals(unittest.TestCase):
    def refused(self, function, *values):
        with self.assertRaises(ramyearly.Refused) as caught:
            function(*values)
        return caught.exception

    def test_a_refusal(self):
        refusal = self.refused(ramyearly.plan, [(300, 90), (400, 90), (400, 90)], [])
        self.assertEqual((refusal.number, refusal.place), (4, 2))
        self.assertEqual(refusal.words, "frequency 400 is not above 400 before it")
        self.assertEqual(str(refusal), "levels: frequency 400 is not above 400 before it (refusal 4, entry 2)")

    def test_overfull(self):
        refusal = self.refused(ramyearly.plan, T, [(0, 2, 4), (5, 6, 1), (0, 2, 4), (0, 2, 4)])
        self.assertIsInstance(refusal, ramyearly.Overfull)
        self.assertEqual((refusal.number, refusal.place), (11, 0))
        self.assertEqual((refusal.start, refusal.end, refusal.spare, refusal.inside), (0, 2, -4, [0, 2, 3]))

    def test_values_without_room(self):
        for function, values, said in (
            (ramyearly.plan, ([(65536, 1)], []), "frequency 65536 does not fit in 16 bits (0 to 65535)"),
            (ramyearly.plan, (T, [(-1, 1, 1)]), "release -1 does not fit in 32 bits (0 to 4294967295)"),
            (ramyearly.plan, ([(2, 10, 3)], []), "3 columns, but a level has 2: frequency, voltage"),
            (ramyearly.plan, (T, [(0, 4)]), "2 columns, but a job has 3: release, deadline, cycles"),
            (ramyearly.setting, (T, 2**32 + 3, 1), "length 4294967299 does not fit in 32 bits (0 to 4294967295)"),
            (ramyearly.setting, (T, 3, 2**64), "load 18446744073709551616 does not fit in 64 bits (0 to 18446744073709551615)"),
            (ramyearly.spare, (T, [], 2**32, 5), "start 4294967296 does not fit in 32 bits (0 to 4294967295)"),
            (ramyearly.spare, (T, [], 0, -1), "end -1 does not fit in 32 bits (0 to 4294967295)"),
            (ramyearly.rounds, ([(0, 2**32, 1, 1)],), "period 4294967296 does not fit in 32 bits (0 to 4294967295)"),
            (ramyearly.rounds, ([(0, 1, 1)],), "3 columns, but a task has 4: phase, period, deadline, cycles"),
            (ramyearly.check, (T, [], [(0, 64, 1)], []), "job 64 has no place in a cell (0 to 63)"),
            (ramyearly.check, (T, [], [(-1, 0, 1)], []), "cell -64 does not fit in 16 bits (0 to 65535)"),
        ):
            with self.assertRaises(ValueError) as caught:
                function(*values)
            self.assertEqual(str(caught.exception), said)

    def test_values_that_are_no_whole_numbers(self):
        for function, values in ((ramyearly.plan, ([(2.5, 1)], [])), (ramyearly.setting, (T, "3", 1))):
            self.assertRaises(TypeError, function, *values)


class Header(InFolder):
    """The structs and parameters of archive.py are those of the header."""

    def answers(self):
        """For each struct's name in the header its class here."""
        return {name + "_answer": answer for name, (answer, _) in archive.FUNCTIONS.items()}

    def test_structs(self):
        lines = []
        for name, answer in self.answers().items():
            lines.append(f'printf("{name} %zu\\n", sizeof(struct {name}));')
            for field, _ in answer._fields_:
                place = f"offsetof(struct {name}, {field}), sizeof(((struct {name} *)0)->{field})"
                lines.append(f'printf("{name} {field} %zu %zu %d\\n", {place}, ((struct {name}){{.{field} = -1}}).{field} < 0);')
        source = os.path.join(self.folder, "layout.c")
        write(source, "#include <stdio.h>\n#include \"ramyearly.h\"\nint main(void) {\n" + "\n".join(lines) + "\nreturn 0;\n}\n")
        program = os.path.join(self.folder, "layout")
        subprocess.run(["cc", "-I", os.path.join(ROOT, "include"), "-o", program, source], check=True)
        printed = subprocess.run([program], capture_output=True, text=True, check=True).stdout
        expected = ""
        for name, answer in self.answers().items():
            expected += f"{name} {ctypes.sizeof(answer)}\n"
            for field, kind in answer._fields_:
                described = getattr(answer, field)
                expected += f"{name} {field} {described.offset} {described.size} {int(kind(-1).value < 0)}\n"
        self.assertEqual(printed, expected)

    def test_functions(self):
        with open(os.path.join(ROOT, "include", "ramyearly.h"), encoding="utf-8") as file:
            header = file.read()
        declared = {name: lent for name, lent in re.findall(r"(ramyearly_[a-z]+)\(([^()]*)\);", header)}
        kinds = {
            "const uint8_t *": ctypes.c_char_p,
            "uint8_t *": ctypes.c_void_p,
            "uint32_t *": ctypes.c_void_p,
            "size_t ": ctypes.c_size_t,
            "uint32_t ": ctypes.c_uint32,
            "uint64_t ": ctypes.c_uint64,
        }
        self.assertEqual(set(declared), set(archive.FUNCTIONS))
        for name, lent in declared.items():
            types = tuple(kinds[re.sub(r"[a-z_]+$", "", part.strip())] for part in lent.split(","))
            self.assertEqual(types, archive.FUNCTIONS[name][1], name)


if __name__ == "__main__":
    unittest.main()

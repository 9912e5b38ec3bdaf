# SPDX-FileCopyrightText: 2026 The PPVM Authors
# SPDX-License-Identifier: Apache-2.0
"""What the package takes the library's functions for, against the C header."""
import ctypes
import re
import subprocess
import unittest
from pathlib import Path

from pebblelinen import CAUSES, _building, _library, _tree, basis, matrix, words

HEADER = Path(__file__).resolve().parent.parent.parent / "include" / "pebblelinen.h"

# What the package has no use for: it knows when words are the same, builds its models itself, and finds by
# refusal 13 how many places actions need.
UNUSED = {"same_word", "test_model", "count_action_terms"}

NUMBERS = {
    "size_t": ctypes.c_size_t,
    "uint64_t": ctypes.c_uint64,
    "uint32_t": ctypes.c_uint32,
    "int32_t": ctypes.c_int32,
    "double": ctypes.c_double,
    "bool": ctypes.c_bool,
}


def header():
    return re.sub(r"/\*.*?\*/", "", HEADER.read_text(), flags=re.DOTALL)


def shape(type_):
    """A type by what it is made of."""
    if isinstance(type_, type) and issubclass(type_, ctypes.Structure):
        return [(name, shape(field)) for name, field in type_._fields_]
    if isinstance(type_, type) and issubclass(type_, ctypes.Array):
        return [shape(type_._type_), type_._length_]
    return ctypes.c_uint64 if type_ is ctypes.c_size_t else type_


def structs(text):
    """The fields of each struct of the header."""
    found = {}
    for fields, name in re.findall(r"typedef struct \{(.*?)\} pebblelinen_(\w+);", text, re.DOTALL):
        found[name] = []
        for type_, names in re.findall(r"(\w+) ([^;]+);", fields):
            for field in names.split(","):
                field, length = re.fullmatch(r"(\w+)(?:\[(\d+)\])?", field.strip()).groups()
                made = type_of(type_, found)
                found[name].append((field, [made, int(length)] if length else made))
    return found


def type_of(name, known):
    if name.startswith("pebblelinen_"):
        return known[name.removeprefix("pebblelinen_")]
    return shape(NUMBERS[name])


class Header(unittest.TestCase):
    def test_functions(self):
        text = header()
        known = structs(text)
        declared = re.findall(r"^(\w+) pebblelinen_(\w+)\(([^)]*)\);", text, re.MULTILINE)
        self.assertGreater(len(declared), 20)
        for answer, name, arguments in declared:
            if name in UNUSED:
                self.assertNotIn(name, _library._FUNCTIONS)
                continue
            with self.subTest(name):
                restype, argtypes = _library._FUNCTIONS[name]
                self.assertEqual(shape(restype), type_of(answer, known))
                expected = []
                for argument in arguments.split(","):
                    type_ = re.fullmatch(r"(?:const )?(\w+) (\*?)\w+", " ".join(argument.split()))
                    expected.append(ctypes.c_void_p if type_[2] else type_of(type_[1], known))
                self.assertEqual([shape(each) for each in argtypes], expected)

    def test_causes_and_limits(self):
        table = re.findall(r"^ \* +(\d+)   (.*?)(?:   .*)?$", HEADER.read_text(), re.MULTILINE)
        causes = {int(number): cause.replace("`", "") for number, cause in table[: len(CAUSES)]}
        self.assertEqual(causes, CAUSES)
        limits = dict(re.findall(r"#define PEBBLELINEN_MAX_(\w+) (\d+)", HEADER.read_text()))
        limits = {name.lower(): int(limit) for name, limit in limits.items()}
        self.assertEqual(limits.pop("words"), basis.MAX_WORDS)
        self.assertEqual(limits.pop("qubits"), words.MAX_QUBITS)
        self.assertEqual(limits.pop("products"), matrix.MAX_PRODUCTS)
        self.assertEqual(limits, _building._LIMITS)

    def test_names_from_outside(self):
        archive = _tree.library() / "libpebblelinen.a"
        listed = subprocess.run(["nm", "-u", archive], check=True, capture_output=True, text=True).stdout
        self.assertEqual(set(re.findall(r"^ +U (\w+)$", listed, re.MULTILINE)), {"memset"})
        self.assertIn("From outside it needs memset alone", " ".join(HEADER.read_text().split()))


if __name__ == "__main__":
    unittest.main()

"""The ten lines of Python, run as examples of its doctest by the module of PREFIX; what README.md shows is what was worked out.

    in_python.py PREFIX FOLDER     FOLDER has examples/
"""
import ast
import doctest
import os
import sys
from pathlib import Path

from support import NAMES, PATH, need, same, ten_lines

HOME, HERE = sys.argv[1], Path(sys.argv[2])
sys.path.insert(0, f"{HOME}/share/shuntberry/python")
os.chdir(HERE)
lines = doctest.DocTestParser().get_doctest(ten_lines("pycon"), {}, "README.md", "README.md", 0)
shown = [ast.literal_eval(example.want) for example in lines.examples if example.want]
same(shown, [True, True, " -> ".join(NAMES[state] for state in PATH)], "what README.md shows of Python")
ran = doctest.DocTestRunner().run(lines)
need(ran.failed == 0 and ran.attempted >= 6, "the lines of Python fail, or are too few")
import shuntberry  # noqa: E402

need(shuntberry.LIBRARY.startswith(HOME), f"another library was asked: {shuntberry.LIBRARY}")
print("readme: ten lines of Python")

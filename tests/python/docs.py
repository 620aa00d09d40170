"""The examples in the module's texts and in python/README.md, run; each public name has a text, each parameter a type, and each call an example."""
import doctest
import importlib
import inspect
import typing

from support import PACKAGE, PREFIX, TOP, group, need, same, shuntberry

same(shuntberry.LIBRARY, str(PREFIX / "lib" / ("libshuntberry.so." + (TOP / "VERSION").read_text().split(".")[0])), "another library")
examples = 0
for name in sorted(path.stem for path in (PACKAGE / "shuntberry").glob("*.py")):
    module = importlib.import_module("shuntberry" if name == "__init__" else f"shuntberry.{name}")
    ran = doctest.testmod(module, optionflags=doctest.ELLIPSIS)  # the words of a refusal are the header's
    need(ran.failed == 0, f"an example of {name} fails")
    examples += ran.attempted
readme = doctest.testfile(str(PACKAGE / "README.md"), module_relative=False)
need(readme.failed == 0 and readme.attempted >= 10, "an example of README.md fails, or there are too few")
need(examples > 50, "too few examples")

TYPES = {"State", "Steps"}
for name in shuntberry.__all__:
    found = getattr(shuntberry, name)
    if isinstance(found, (int, str)) or name in TYPES:
        continue
    need(inspect.getdoc(found), f"{name} has no text")
    calls = [found] if not inspect.isclass(found) else [
        getattr(found, part) for part in vars(found) if not part.startswith("_") and callable(getattr(found, part))]
    for call in calls:
        hints = typing.get_type_hints(call)
        need("return" in hints, f"{call.__qualname__} has no type")
        for parameter in inspect.signature(call).parameters:
            need(parameter == "self" or parameter in hints, f"{parameter} of {call.__qualname__} has no type")
    if inspect.isroutine(found):
        need(">>>" in (inspect.getdoc(found) or ""), f"{name} has no example")
need((PACKAGE / "shuntberry" / "py.typed").exists(), "py.typed is missing")
group(f"examples, {examples + readme.attempted} lines of them, texts and types")

"""README.md itself: its links lead somewhere, it lists docs/, its picture is that of the table, its toolchain is the one that is installed, and the lines that are to be believed are as many as it says."""
import re
import shutil
import xml.etree.ElementTree as xml

from support import NAMES, PUMP, README, TOP, need, run, same

anchors = {re.sub(r"[^a-z0-9 -]", "", title.lower()).replace(" ", "-") for title in re.findall(r"^#+ (.*)$", README, re.M)}
links = re.findall(r"\]\(([^)]*)\)", README)
for link in links:
    need(link[1:] in anchors if link.startswith("#") else (TOP / link).exists(), f"README.md: the link {link} leads nowhere")
need(len(links) > 5, "README.md: too few links were found")

part = README.partition("| in `docs/` | what |")[2].partition("\n\n")[0]
same(sorted(re.findall(r"^\| `([^`]*)` \|", part, re.M)), sorted(path.name for path in (TOP / "docs").iterdir()), "README.md lists docs/")

drawn = [(element.tag.rpartition("}")[2], element.text or "") for element in xml.parse(TOP / "docs" / "pump.svg").iter()]
steps = {tuple(map(int, found)) for tag, text in drawn if tag == "title" for found in re.findall(r"^s(\d+)->s(\d+)$", text)}
same(steps, PUMP.steps, "the steps in docs/pump.svg")
words = {text for tag, text in drawn if tag == "text"}
need({f"{state} {name}" for state, name in NAMES.items()} <= words, "docs/pump.svg lacks a screen")

if shutil.which("rt"):
    version = run(["rt", "version"]).decode().strip()
    need(f"`{version}`" in README, f"README.md names another toolchain than {version!r}")
else:
    print("skipped: no rt: the version of the toolchain was not looked at")

counted = [int(number) for number in re.findall(r"^ *(\d+)  ", run([str(TOP / "scripts" / "believe")]).decode(), re.M)]
for page in (README, (TOP / "docs" / "BELIEVE.md").read_text()):
    figures = [int(number.replace(",", "")) for number in re.findall(r"\bsome ([\d,]+)(?: lines| for all)", page)]
    same(len(figures), 2, "figures of lines that are to be believed")
    for figure, count in zip(figures, (counted[0], counted[-1])):
        need(abs(figure - count) <= count / 20, f"a page says {figure} lines, and scripts/believe {count}")
print(f"readme: {len(links)} links, docs/, {counted[0]} and {counted[-1]} lines to be believed")

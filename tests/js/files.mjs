// tests/files: what check says of each is what is expected, and the text of each that is accepted is its own.
import { readFileSync, readdirSync } from "node:fs";
import { end, hex, same, shuntberry as s } from "./support.mjs";

const FOLDER = "tests/files/";
let texts = 0;
for (const name of readdirSync(FOLDER).filter((file) => file.endsWith(".table"))) {
  const data = readFileSync(FOLDER + name);
  const expected = readFileSync(FOLDER + name.replace(".table", ".expected"), "utf8");
  const checked = s.check(data);
  same(checked.text, expected, name);
  const lines = expected.split("\n");
  const isDraft = lines[0] === "states 0 groups 0";
  const status = lines[0].startsWith("refused") ? 2 : lines[1].startsWith("unsafe") ? 1 : isDraft ? 4 : 0;
  same([checked.status, checked.isSafe], [status, status === 0], name);
  if (status === 2) {
    same(`refused ${checked.refusal.number}\n`, expected);
    for (const ask of [() => checked.verdict, () => checked.n, () => s.read(data)]) {
      try {
        ask();
        same("an answer", "a refusal", name);
      } catch (error) {
        same([error.name, error.number], ["Refused", checked.refusal.number], name);
      }
    }
    continue;
  }
  const table = s.read(data);
  const decision = s.decide(table);
  same([decision.verdict, decision.isSafe], [checked.verdict, checked.isSafe], name);
  same(lines[1], `${decision.verdict} refinements ${decision.count}`, name);
  const { invariant, path } = decision;
  const kept = invariant && `invariant ${invariant.length}: ${invariant.join(" ") || "none"}`;
  const said = kept ?? `path ${path.join(" ")}`;
  same(said, lines[2], name);
  same(s.shortestPath(table), path, name);
  same(hex(s.write(table)), hex(data), name);
  const text = readFileSync(FOLDER + name.replace(".table", ".txt"), "utf8");
  same(table.toText(), text, name);
  same(s.Table.fromText(text).equals(table), true, name);
  texts++;
}
same(texts > 20, true, "texts");
end("files", 300);

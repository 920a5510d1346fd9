// grade.mjs: the points that the page gives, and those of class/grade: the same records for the solutions, the starter files and the mutants
// of the exercises that the page grades. A page of an older tree (SOURCES) may say of a fault what the program of that tree said: of such a
// page the points are compared, part by part, and how many things failed, without what is said of each.
import fs from "node:fs";
import os from "node:os";
import path from "node:path";
import { spawnSync } from "node:child_process";
import { listOf, TREE, workerOf } from "./kit.mjs";

// The mutants of a file, as class/check reads them: what each is, and its edits.
function mutantsOf(text) {
  const found = [];
  let file = null;
  for (const line of text.split("\n")) {
    const at = line.indexOf(":"), key = line.slice(0, at), words = line.slice(at + 2).replaceAll("\\n", "\n");
    if (key === "mutant") {
      found.push({ what: words, edits: [] });
      file = null;
    } else if (key === "file") file = words;
    else if (key === "old") found.at(-1).edits.push({ file, old: words, made: "" });
    else if (key === "new") found.at(-1).edits.at(-1).made = words;
  }
  return found;
}

const read = (folder, names) => Object.fromEntries(names.map((name) => [name, fs.readFileSync(path.join(folder, name), "utf8")]));

function edited(files, edits) {
  const made = { ...files };
  for (const { file, old, made: text } of edits) {
    const [name] = Object.keys(made).filter((each) => (file === null || file === each) && made[each].split(old).length === 2);
    made[name] = made[name].replace(old, () => text);
  }
  return made;
}

// What is handed in for each exercise that the page grades: its solution, its starter files and its mutants.
export function handedIn(exercise) {
  const folder = path.join(TREE, "class", exercise.folder), names = Object.keys(exercise.files);
  const solution = read(path.join(folder, "solution"), names);
  return [
    { what: "the solution", files: solution, all: true },
    { what: "the starter files", files: read(path.join(folder, "starter"), names) },
    ...mutantsOf(fs.readFileSync(path.join(folder, "mutants"), "utf8")).map(({ what, edits }) => ({ what, files: edited(solution, edits) })),
  ];
}

// The record that class/grade gives.
function ofClass(program, { number, files: names }, files) {
  const yard = fs.mkdtempSync(path.join(os.tmpdir(), "grade-"));
  for (const name of Object.keys(names)) fs.writeFileSync(path.join(yard, name), files[name]);
  const words = [path.join(TREE, "class/grade"), "--json", "--kit", path.resolve(program), String(number), ...Object.keys(names)];
  const ran = spawnSync("python3", words, { cwd: yard, encoding: "utf8" });
  fs.rmSync(yard, { recursive: true });
  if (ran.error || !ran.stdout) throw ran.error ?? new Error(ran.stderr);
  return JSON.parse(ran.stdout);
}

// Whether the page was made from the tree as it is.
function isOfThisTree() {
  const made = fs.readFileSync(path.join(TREE, "playground/SOURCES"), "utf8").split(" ")[0];
  const ran = spawnSync(path.join(TREE, "playground/digest"), { encoding: "utf8" });
  if (ran.error || ran.status) throw ran.error ?? new Error(ran.stderr);
  return ran.stdout.trim() === made;
}

// A record that says of each part only how many things failed.
const withoutTexts = (record) => ({ ...record, parts: record.parts.map((part) => ({ ...part, failed: part.failed.length })) });

export async function grades(page, program, count) {
  const compared = isOfThisTree() ? (record) => record : withoutTexts;
  const before = count.passed, { kit, gradeExercise } = await workerOf(page, "gradeExercise");
  for (const exercise of listOf(page, "EXERCISES").filter((each) => each.files)) {
    for (const { what, files, all } of handedIn(exercise)) {
      const made = gradeExercise(kit, exercise, files), wanted = ofClass(program, exercise, files);
      count.is(`exercise ${exercise.number}: the points of ${what}`, JSON.stringify(compared(made)) === JSON.stringify(compared(wanted)), [made, wanted]);
      count.is(`exercise ${exercise.number}: ${what} gets ${all ? "all points" : "fewer points"}`, all ? made.points === made.of : made.points < made.of, made);
    }
  }
  const solutions = listOf(page, "EXERCISES").filter((each) => each.files).map((each) => handedIn(each)[0].files);
  const longest = solutions.flatMap(Object.values).flatMap((text) => text.split("\n")).filter((line) => /^(meets|clauses|wrong|[a-e] \d)/.test(line));
  const data = JSON.stringify(listOf(page, "EXERCISES"));
  count.is("no answer is in the page", longest.every((line) => !data.includes(line)), longest);
  console.log(`the points of the page and of class/grade: ${count.passed - before} passed`);
}

// ---- exercises: those of class/, and the points of what is handed in
const ANSWERS = "bcpl-exercises";  // the key of what was handed in: a text for each `number/file`

let exercise = EXERCISES[0];

// What was typed for the exercises.
function typedAnswers() {
  try {
    const kept = JSON.parse(localStorage.getItem(ANSWERS) || "{}");
    return kept && typeof kept === "object" ? kept : {};
  } catch {
    return {};
  }
}

let answers = {};

function keepAnswer(file, text) {
  answers[`${exercise.number}/${file}`] = text;
  try {
    localStorage.setItem(ANSWERS, JSON.stringify(answers));
  } catch { /* this browser keeps none: they last as long as the page */ }
}

const answerOf = (file) => answers[`${exercise.number}/${file}`] ?? exercise.files[file];
const languageOf = (file) => (file.endsWith(".ocode") ? "OCODE" : "BCPL");

function element(name, properties = {}, ...inside) {
  const made = Object.assign(document.createElement(name), properties);
  made.append(...inside);
  return made;
}

// The text area of a file, and the ways between it and the editor.
function drawAnswer(file) {
  const id = `answer-${file}`, text = answerOf(file);
  const area = element("textarea", { id, value: text, spellcheck: false, rows: Math.min(16, Math.max(4, text.split("\n").length)) });
  area.oninput = () => keepAnswer(file, area.value);
  const head = element("div", { className: "row" }, element("label", { htmlFor: id, textContent: file }));
  if (!file.endsWith(".txt")) {
    const edit = element("button", { textContent: "To the editor" }), take = element("button", { textContent: "From the editor" });
    edit.setAttribute("aria-label", `Put ${file} into the editor`);
    take.setAttribute("aria-label", `Take ${file} from the editor`);
    edit.onclick = () => replaceProgram(area.value, "", languageOf(file));
    take.onclick = () => {
      area.value = $("source").value;
      keepAnswer(file, area.value);
    };
    head.append(edit, take);
  }
  return element("div", { className: "answer" }, head, area);
}

// Shows an exercise: what it asks for, its parts without points, and what is handed in.
function showExercise(number) {
  exercise = EXERCISES.find((each) => each.number === number) || EXERCISES[0];
  $("exercise").value = exercise.number;
  $("exercise-name").textContent = `Exercise ${exercise.number}: ${exercise.name}`;
  const page = element("a", { href: `../class/${exercise.folder}/README.md`, textContent: `class/${exercise.folder}/README.md` });
  const how = exercise.files
    ? " says what to write. Paste it below, or take it from the editor; what you type here is kept in this browser."
    : ` says what to write. It is a program in Python, C or another language, which this page does not run: class/grade ${exercise.number} FILE gives its points.`;
  $("exercise-about").replaceChildren(`${exercise.minutes} minutes. `, page, how);
  $("grade").disabled = $("restart").disabled = !exercise.files;
  $("answers").replaceChildren(...(exercise.files ? Object.keys(exercise.files).map(drawAnswer) : []));
  showPoints(null);
}

// Shows the parts with their points, and what failed.
function showPoints(record) {
  const parts = record ? record.parts : exercise.parts.map(([name, of]) => ({ name, of, points: null, failed: [] }));
  const rows = parts.map(({ name, points, of, failed }) => {
    const wrong = element("td", { className: "failures" }, ...failed.map((each) => element("div", { textContent: each })));
    const row = element("tr", {}, element("td", { textContent: name, className: "part" }), element("td", { textContent: points === null ? "" : points, className: "count" }), element("td", { textContent: of, className: "count" }), wrong);
    if (points !== null) row.dataset.points = points;
    if (failed.length) row.className = "lost";
    return row;
  });
  $("points").tBodies[0].replaceChildren(...rows);
  const all = record && record.points === record.of;
  $("graded").textContent = record ? `${record.points} of ${record.of} points${all ? ": all of them" : ""}` : "";
  $("graded").classList.toggle("wrong", Boolean(record) && !all);
}

function gradeAnswers() {
  const asked = exercise, files = Object.fromEntries(Object.keys(asked.files).map((file) => [file, answerOf(file)]));
  document.body.dataset.busy = "yes";
  $("graded").textContent = "grading";
  listings.ask({ task: "grade", known: asked, files }, ({ answer, failed }) => {
    delete document.body.dataset.busy;
    if (asked !== exercise) return;
    if (failed) {
      showPoints(null);
      $("graded").textContent = failed;
      return;
    }
    showPoints(answer);
  });
}

function restartExercise() {
  for (const file of Object.keys(exercise.files)) keepAnswer(file, exercise.files[file]);
  showExercise(exercise.number);
}

function buildExercises() {
  answers = typedAnswers();
  $("exercise").replaceChildren(...EXERCISES.map(({ number, name }) => new Option(`${number}: ${name}`, number)));
  $("exercise").onchange = () => {
    showExercise(Number($("exercise").value));
    keepAddress();
  };
  $("grade").onclick = gradeAnswers;
  $("restart").onclick = restartExercise;
  showExercise(1);
}

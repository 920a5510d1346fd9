// ---- links: a line of the source, the rows of the tables and the words of the code light up together

const linkage = { map: [], rows: [], chosen: null };

// The rows of a listing: each has its text, its line, and its section and its number there, if it is one of a table.
function rowsOf(text) {
  const rows = [];
  let section = -1, number = 0, left = 0;
  for (const each of text.split("\n")) {
    if (each.startsWith("section ")) { section += 1; left = 0; }
    else if (/^[A-Za-z]+$/.test(each)) left = 2;                  // (the name of the table, and then the names of its columns)
    else if (!each) left = 0;
    if (left > 0) { left -= 1; number = 0; rows.push({ text: each, line: null, section: null, number: 0 }); continue; }
    const isRow = section >= 0 && each && !each.startsWith("section ");
    if (isRow) number += 1;
    rows.push({ text: each, line: isRow ? Number(each.slice(0, 6)) || null : null, section: isRow ? section : null, number: isRow ? number : 0 });
  }
  return rows;
}

// Shows a listing, a row for each of its lines.
function showRows(text) {
  linkage.rows = rowsOf(text);
  const drawnRows = linkage.rows.map(({ text: words, section }, i) => {
    const row = document.createElement("div");
    row.textContent = i === linkage.rows.length - 1 ? words : `${words}\n`;
    if (section !== null) row.className = "row-of";
    row.dataset.row = i;
    return row;
  });
  $("view").replaceChildren(...drawnRows);
  light();
}

// Whether a row belongs to what is chosen: 2 where the map says so, 1 where it is of the same line.
function belongs(row, part) {
  const { chosen } = linkage;
  if (!chosen || row.section === null) return 0;
  const key = { tree: "node", ocode: "stmt", intcode: "item" }[part];
  if (chosen.section === row.section && key && chosen[key].has(row.number)) return 2;
  return row.line !== null && row.line === chosen.line ? 1 : 0;
}

// Marks the rows and the line of the source that belong to what is chosen.
function light(scroll = true) {
  const part = tab.part, rows = $("view").children;
  let first = null;
  const exact = part && linkage.rows.some((row) => belongs(row, part) === 2);
  linkage.rows.forEach((row, i) => {
    if (!rows[i] || row.section === null) return;
    const how = part ? belongs(row, part) : 0;
    rows[i].className = how === 2 ? "row-of lit" : how === 1 ? "row-of near" : "row-of";
    if (how === (exact ? 2 : 1)) first ??= rows[i];
  });
  editor.here = linkage.chosen ? linkage.chosen.line ?? 0 : 0;
  draw();
  if (scroll && first) first.scrollIntoView({ block: "nearest" });
}

// Chooses the row of this index, with what belongs to it.
function chooseRow(index) {
  const row = linkage.rows[index];
  if (!row || row.section === null) return;
  const section = linkage.map[row.section];
  const none = { line: row.line, stmt: new Set(), item: new Set(), node: new Set() };
  linkage.chosen = { section: row.section, ...(section ? linked(section, tab.part, row.number, row.line) : none) };
  linkage.at = index;
  light(false);
  if (linkage.chosen.line) showLine(linkage.chosen.line);
}

// Chooses a line of the source.
function chooseLine(line) {
  linkage.chosen = { section: -1, line, stmt: new Set(), item: new Set(), node: new Set() };
  linkage.at = null;
  light();
}

// The line of the cursor, counted from 1.
function lineOfCursor() {
  return $("source").value.slice(0, $("source").selectionStart).split("\n").length;
}

// Brings a line of the source into view; the focus stays.
function showLine(line) {
  const source = $("source"), top = TOP + (line - 1) * LINE;
  if (top < source.scrollTop || top > source.scrollTop + source.clientHeight - 2 * LINE) source.scrollTop = Math.max(0, top - source.clientHeight / 3);
  draw();
}

// The row that follows another in a direction, by the keyboard.
function moveRow(by) {
  const rows = linkage.rows;
  let index = linkage.at ?? (by > 0 ? -1 : rows.length);
  for (index += by; index >= 0 && index < rows.length && rows[index].section === null;) index += by;
  if (index < 0 || index >= rows.length) return;
  chooseRow(index);
  $("view").children[index].scrollIntoView({ block: "nearest" });
}

function listenToRows() {
  $("view").onclick = (event) => {
    const row = event.target.closest("[data-row]");
    if (row && tab.part && !String(getSelection())) chooseRow(Number(row.dataset.row));
  };
  $("view").onkeydown = (event) => {
    const by = { ArrowDown: 1, ArrowUp: -1 }[event.key];
    if (!by || !tab.part) return;
    event.preventDefault();
    moveRow(by);
  };
  const follow = () => {
    if (!tab.part) return;
    const line = lineOfCursor();
    if (linkage.chosen?.line !== line) chooseLine(line);
  };
  for (const name of ["click", "keyup"]) $("source").addEventListener(name, follow);
}

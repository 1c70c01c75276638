// In front of the page: what goes wrong in it.
const trialFaults = [];
const blame = text => { if (trialFaults.length < 5) trialFaults.push(text); };
addEventListener("error", event => blame("error: " + event.message));
addEventListener("securitypolicyviolation", event => blame("it loads " + event.blockedURI));
console.error = console.warn = (...words) => blame("console: " + words.join(" "));
// --- behind the page ---
"use strict";
const one = selector => document.querySelector(selector);
const all = selector => [...document.querySelectorAll(selector)];
const isWide = innerWidth >= 1000;
const trialRows = all("#trace a").map(it => it.textContent).filter(it => it.startsWith("# node ")), trialTurns = trialRows.length;
let smallest = Infinity;

function expect(holds, text) {
  if (!holds) blame(text);
}

// Presses a key, and waits until the page has followed.
async function press(key) {
  const followed = new Promise(done => {
    addEventListener("hashchange", () => setTimeout(done), { once: true });
    setTimeout(done, 200);
  });
  document.dispatchEvent(new KeyboardEvent("keydown", { key, bubbles: true, cancelable: true }));
  await followed;
}

// What the page must show of a turn.
function look(turn) {
  const now = one("#now").textContent, row = one("#grid tr.on"), drawn = one("#picture svg");
  expect(now.startsWith(turn === 0 ? "Before the first turn" : `Turn ${turn} of ${trialTurns}.`), `at turn ${turn} it says ${now.slice(0, 40)}`);
  expect(turn === 0 ? row === null : row !== null && row.dataset.at === String(turn), `turn ${turn} isn't marked in the grid`);
  expect(turn === 0 || one("#now").childNodes[1].textContent.trim().length > 10, `turn ${turn} has no sentence`);
  const text = now + one("#picture").textContent + one("#table").textContent + (row ? row.textContent : "");
  expect(!/undefined|NaN|null|can't be right|\[object/.test(text), `at turn ${turn} it says ${/.{0,20}(undefined|NaN|null|can't be right|\[object).{0,20}/.exec(text)}`);
  if (row) told(one("#now").childNodes[1].textContent, row, turn);
  const isMany = row !== null && row.querySelectorAll("td.k:not(.k-INVALID)").length > 17;
  expect((drawn === null) === isMany, `turn ${turn} has ${isMany ? "a" : "no"} picture`);
  if (row) inSight(row, turn);
  if (row) counted(row, turn);
  if (drawn) measure(drawn, turn);
  if (drawn) arrows(row, drawn, turn);
}

// The sentence of a turn names the node that its event names, or for which it waits; so does the node's cell where it waits.
function told(sentence, row, turn) {
  const text = trialRows[turn - 1], found = /: \w+\((\d+)|; for node (\d+)$/.exec(text), me = /^# node (\d+)/.exec(text)[1];
  if (!found) return;
  const name = found[2] === me ? "itself" : "node " + (found[1] || found[2]), says = new RegExp(name.replace("node", "(node|waits for)") + "\\b", "i");
  expect(says.test(sentence), `turn ${turn} is told without ${name}: ${sentence}`);
  const cell = row.cells[all("#grid th").findIndex(it => it.textContent === "node " + me)], wait = cell.querySelector(".wait");
  if (found[2]) expect(wait !== null && says.test(wait.textContent), `turn ${turn} has no ${name} in ${cell.textContent}`);
}

// An arrow for each node that waits for another; one more stands in the key.
function arrows(row, drawn, turn) {
  const waits = row === null ? [] : [...row.querySelectorAll(".below .wait")].filter(it => /\d/.test(it.textContent));
  const drawnWaits = drawn.querySelectorAll("path.waits").length - 1;
  expect(drawnWaits === waits.length, `turn ${turn} has ${drawnWaits} arrows for ${waits.length} that wait`);
  const titles = all("#grid th").map(it => it.textContent), places = new Map();
  for (const box of drawn.querySelectorAll("g[class^='k-']")) places.set(/memory|node \d+/.exec(box.querySelector(".head").textContent)[0], box.querySelector(".box"));
  const ends = [...drawn.querySelectorAll("path.waits")].map(it => it.getAttribute("d").match(/-?[\d.]+/g).map(Number));
  for (const it of waits) {
    const from = places.get(titles[it.closest("td").cellIndex]), to = places.get("node " + /\d+/.exec(it.textContent)[0]);
    expect(ends.some(way => isAt(from, way[0], way[1]) && isAt(to, way[way.length - 2], way[way.length - 1])), `turn ${turn} has no arrow for ${it.textContent}`);
  }
}

// Whether a point is at a box.
function isAt(box, x, y) {
  const [left, top, width, height] = ["x", "y", "width", "height"].map(name => Number(box.getAttribute(name)));
  return x > left - 6 && x < left + width + 6 && y > top - 6 && y < top + height + 6;
}

// Bytes count in valid copies, and nowhere else but in memory that isn't GONE; what is only kept in hand is told apart.
function counted(row, turn) {
  for (const cell of row.querySelectorAll("td.k")) {
    const bytes = cell.querySelector(".below s"), kind = /k-(\w+)/.exec(cell.className)[1], isValid = /^(FRESH|DIRTY|VALID|CONVERT|PURGING|HOME)$/.test(kind);
    const right = isValid ? ["good", "hand", "stale"].slice(0, cell.cellIndex === 3 ? 3 : 1) : /QUEUED|LEAVING/.test(kind) ? ["hand", "stale"] : ["stale", "hand"];
    expect(bytes.textContent === "" || right.includes(bytes.className), `at turn ${turn} ${cell.textContent} has bytes that are ${bytes.className}`);
  }
}

function inSight(row, turn) {
  const inner = row.getBoundingClientRect(), outer = one("#rows").getBoundingClientRect();
  expect(inner.top >= outer.top - 1 && inner.bottom <= outer.bottom + 1, `the row of turn ${turn} isn't in sight`);
}

function measure(drawn, turn) {
  expect(drawn.getBoundingClientRect().right <= innerWidth + 1, `the picture of turn ${turn} is too wide`);
  const scale = drawn.getBoundingClientRect().width / drawn.viewBox.baseVal.width;
  for (const text of drawn.querySelectorAll("text")) smallest = Math.min(smallest, scale * parseFloat(getComputedStyle(text).fontSize));
}

// The strips of two kinds differ in more than their colours.
function strips() {
  const seen = new Map();
  for (const kind of all("#key span.k")) {
    const strip = getComputedStyle(kind).backgroundImage.replace(/rgba?\([^)]*\)/g, "");
    if (strip === "none") continue;
    expect(!seen.has(strip), `${kind.textContent} has the strip of ${seen.get(strip)}`);
    seen.set(strip, kind.textContent);
  }
  expect(seen.size === 10, `${seen.size} kinds have a strip`);
}

async function keys() {
  for (let turn = 2; turn <= trialTurns && trialFaults.length === 0; turn += 1) {
    await press("PageDown");
    look(turn);
  }
  if (trialFaults.length > 0) return;
  const back = ["PageUp", "ArrowUp", "ArrowLeft"].slice(0, trialTurns);
  for (let i = 0; i < back.length; i += 1) {
    await press(back[i]);
    look(trialTurns - i - 1);
  }
  if (trialTurns < 4) return;
  for (const [key, turn] of [["ArrowRight", trialTurns - 2], ["ArrowDown", trialTurns - 1], ["End", trialTurns], ["Home", 0]]) {
    await press(key);
    look(turn);
  }
}

// Beside the turns and behind them stand the script's commands, in their order, and its first comment is the title.
function scripts() {
  expect(one("h1").textContent === trialTitle, `its title is ${one("h1").textContent}`);
  const behind = /(?<=Behind the last turn: ).*(?=\.$)/.exec(one("#more").textContent) || "";
  const beside = all("#grid .command").map(it => it.textContent).concat(behind).filter(it => it).join("; ");
  const acts = trialScript.split("\n").filter(it => /^(load|store|add|evict|turn|done|rest|end)\b/.test(it)).join("; ");
  expect(beside === acts, `beside its turns stands ${beside.slice(0, 60)}`);
}

// A key shows the grid alone; from there a turn on, and the picture again.
async function alone() {
  const turn = Math.min(2, trialTurns);
  await press("Home");
  await press("g");
  expect(getComputedStyle(one("#picture")).display === "none", "the grid isn't alone");
  for (let i = 0; i < turn; i += 1) await press("PageDown");
  expect(location.hash === "#grid=" + turn && (one("#grid tr.on") || { dataset: {} }).dataset.at === String(turn), `alone it marks ${location.hash}`);
  await press("G"); // as under caps lock
  look(turn);
}

async function trial() {
  look(Math.min(1, trialTurns));
  strips();
  const cells = all("#grid tbody tr").map(it => it.cells.length), columns = all("#grid th").length;
  expect(cells.length === trialTurns && cells.every(it => it === columns), `its grid has ${cells.length} rows and ${columns} columns`);
  await keys();
  if (trialTurns > 0) scripts();
  if (trialTurns > 0) await alone();
  expect(document.documentElement.scrollWidth <= innerWidth, `it is ${document.documentElement.scrollWidth} wide`);
  expect(!isWide || smallest >= 20, `its picture has text of ${smallest} px`);
  const text = smallest === Infinity ? 0 : Math.floor(smallest);
  parent.postMessage({ turns: trialTurns, columns: columns - 3, text, faults: trialFaults }, "*");
}

trial().catch(error => {
  blame("trial: " + error);
  parent.postMessage({ turns: 0, columns: 0, text: 0, faults: trialFaults }, "*");
});

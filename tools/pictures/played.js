// In front of the page: what goes wrong in it.
const trialFaults = [];
const blame = text => { if (trialFaults.length < 5) trialFaults.push(text); };
addEventListener("error", event => blame("error: " + event.message));
addEventListener("securitypolicyviolation", event => blame("it loads " + event.blockedURI));
console.error = console.warn = (...words) => blame("console: " + words.join(" "));
// --- behind the page ---
// The program's own rows of each state, and the turns among them: whose, where to, and what.
const trialRows = id("states").textContent.split(/^state\n/m).slice(1).map(block => block.split("\n").filter(row => row));
const trialTurns = trialRows.map(rows => rows.map(row => /^turn (\d+) (\d+) line (\d+) (.*); (?:for node (\d+))?$/.exec(row)).filter(it => it)
  .map(it => ({ node: Number(it[1]), to: Number(it[2]), line: Number(it[3]), what: it[4], whom: it[5] === undefined ? null : Number(it[5]) })));
const trialWays = [[]];
trialTurns.forEach((list, s) => { for (const it of list) if (!trialWays[it.to]) trialWays[it.to] = trialWays[s].concat(it.node); });
// Of each state the outcomes that are still possible: those of the states that turns lead to from it.
const trialLeft = trialTurns.map((list, s) => outcomes.filter(it => it.ends.includes(s)).map(it => it.letter));
for (let isNew = true; isNew;) {
  isNew = false;
  for (let s = COUNT - 1; s >= 0; s -= 1) {
    const all = [...new Set([...trialLeft[s], ...trialTurns[s].flatMap(it => trialLeft[it.to])])].sort();
    if (all.length > trialLeft[s].length) [trialLeft[s], isNew] = [all, true];
  }
}
const expect = (holds, text) => { if (!holds) blame(text); };
const press = key => dispatchEvent(new KeyboardEvent("keydown", { key, cancelable: true }));
const cardOfNode = i => document.querySelector(`.card[data-node="${i}"]`);
const take = i => i < 10 ? press(String(i)) : cardOfNode(i).click();

// The program's rows of a state, of the line in view.
function rowsOf(s) {
  const rows = trialRows[s], from = rows.findIndex(row => row.startsWith("line " + view + " is ")), more = rows.slice(from + 1).findIndex(row => row.startsWith("line "));
  return more < 0 ? rows.slice(from) : rows.slice(from, from + 1 + more);
}

// What the page must show of a state.
function look(s) {
  expect(here() === s, `it is at state ${here()}, and not at ${s}`);
  for (const row of rowsOf(s)) {
    const memory = /^line \d+ is (\w+)/.exec(row), node = /^node (\d+) is (\w+) forw \w+ back \w+( held)?; ([^;]*);/.exec(row);
    const box = boxes.get(memory ? "m" : node ? Number(node[1]) : null);
    if (!box || box.hidden) continue;
    expect(box.querySelector(".tag").textContent.split(" ")[0] === (memory || node)[memory ? 1 : 2], `in state ${s} it shows ${box.textContent} for ${row}`);
    const bytes = /(?:has|keeps) (\d+) (\d+)/.exec(row), shownBytes = box.querySelector(".bytes").textContent;
    if (bytes) expect(shownBytes.startsWith(bytes[2]) && shownBytes.includes("stamp " + bytes[1]), `in state ${s} its bytes are ${shownBytes} for ${row}`);
    const next = node && trialTurns[s].find(it => it.node === Number(node[1]) && it.line === view), step = node && node[4] !== "Idle" ? node[4] : "";
    if (node && step) expect(box.querySelector(".step").textContent === step || box.textContent.includes("in the hand of"), `in state ${s} its step is ${box.textContent} for ${row}`);
    if (node) expect(nodeOf(s, Number(node[1])).waits === (next ? next.whom : null), `in state ${s} node ${node[1]} waits otherwise`);
  }
  lastRow(s);
  arrows(s, "wait", row => /^node \d+ is/.test(row) ? waitOf(s, Number(row.split(" ")[1])) : null);
  arrows(s, "forw", (row => /^(?:line|node) \d+ is \w+ forw (\d+)/.exec(row)));
  arrows(s, "back", (row => /^node \d+ is .* back (\d+)/.exec(row)));
  const text = id("picture").textContent + id("turns").textContent + id("goals").textContent + id("note").textContent + id("grid").tBodies[0].lastChild.textContent;
  const wrong = /.{0,30}(undefined|NaN|null|\[object|\b1 (states|ways|outcomes|turns)\b).{0,20}/.exec(text);
  expect(wrong === null, `in state ${s} it says ${wrong}`);
  expect(document.querySelectorAll("#grid tbody tr").length === path.length + 1, `in state ${s} its run has other rows`);
}

// Whom the node waits for on the line in view, as a match has it.
function waitOf(s, node) {
  const next = trialTurns[s].find(it => it.node === node && it.line === view);
  return next && next.whom !== null ? [null, next.whom] : null;
}

// The arrows of a sort lead from each row to the node that it tells, and to no other.
function arrows(s, sort, told) {
  const wanted = [];
  const isNear = (k, x, y) => x > L.at[k].x - 6 && x < L.at[k].x + L.at[k].w + 6 && y > L.at[k].y - 6 && y < L.at[k].y + L.at[k].h + 6;
  for (const row of rowsOf(s)) {
    const from = row.startsWith("line ") ? "m" : /^node \d+ is/.test(row) ? Number(row.split(" ")[1]) : null, to = from === null ? null : told(row);
    if (to && from !== Number(to[1]) && L.at[from] && L.at[to[1]]) wanted.push([from, Number(to[1])]);
  }
  const ways = [...document.querySelectorAll("#picture path." + sort)].map(it => it.getAttribute("d").match(/[\d.]+/g).map(Number));
  const isDrawn = ([from, to]) => ways.some(way => isNear(from, way[0], way[1]) && isNear(to, way[way.length - 2], way[way.length - 1]));
  expect(ways.length === wanted.length && wanted.every(isDrawn), `in state ${s} its arrows ${sort} aren't ${wanted.join("; ")}`);
}

// The last row of the run: whose turn it was, what that did, and how it left memory and each node.
function lastRow(s) {
  const cells = [...id("grid").tBodies[0].lastChild.cells], i = path[path.length - 1], was = run[run.length - 2];
  const told = path.length ? trialTurns[was].find(it => it.node === i) : null, says = cells[1].textContent;
  const name = told && told.what.startsWith("waits") ? "waits" : told && told.what === "only looked" ? "out already" : told ? /^\w+/.exec(told.what)[0] : "start";
  expect(told ? says.startsWith(i + " " + name) : says === name, `in state ${s} its last row says ${says}`);
  if (told) expect(LINES === 1 ? !says.includes(", line ") : says.endsWith(", line " + told.line), `in state ${s} its last row says ${says}, and not line ${told.line}`);
  if (told && told.whom !== null) expect(says.startsWith(i + " waits for " + told.whom), `in state ${s} its last row says ${says}, and not whom`);
  ["m", ...shown()].forEach((k, at) => {
    const wanted = boxes.get(k).querySelector(".tag").firstChild.textContent, tag = cells[at + 2].querySelector(".t").textContent.replace("\u200b", "");
    expect(tag.split(/[+ ]/)[0] === wanted, `in state ${s} its last row has ${tag} for ${wanted}`);
  });
}

// Each turn of a state, by its key where it has one, and back.
function moves(s) {
  setPath(trialWays[s]);
  show();
  look(s);
  for (const i of openNodes) {
    const told = trialTurns[s].find(it => it.node === i), card = cardOfNode(i);
    expect(card.disabled === !told, `in state ${s} the card of node ${i} is ${card.disabled}`);
    if (told) {
      const name = told.what.startsWith("waits") ? "waits" : told.what === "only looked" ? "no exchange" : /^\w+/.exec(told.what)[0], says = card.querySelector(".says").textContent;
      const found = /^\w+\((\d+)/.exec(told.what), named = found ? Number(found[1]) : told.whom;
      expect(named === null || new RegExp(named === i ? "itself" : "node " + named + "\\b", "i").test(says), `in state ${s} the card of node ${i} doesn't name node ${named}: ${says}`);
      expect(card.querySelector(".ev").textContent.startsWith(name) && says.length > 10, `in state ${s} the card of node ${i} says ${card.textContent}`);
      const then = card.querySelector(".then").textContent, left = trialLeft[told.to], lost = trialLeft[s].filter(it => !left.includes(it));
      const wanted = told.to === s ? "nothing changes" : outcomes.length < 2 ? "to a state" : lost.length ? "rules out " + lost.join(" ") : "then still possible: " + left.join(" ");
      expect(outcomes.length < 2 ? then.startsWith(wanted) || then === "nothing changes" : then === wanted, `in state ${s} the card of node ${i} says ${then}, and not ${wanted}`);
    }
    expect((card.querySelector("kbd") !== null) === (i < 10 && !card.disabled), `in state ${s} the key of node ${i} is another`);
    take(i);
    if (told) look(told.to);
    if (told) press("Backspace");
    expect(here() === s, `a turn of node ${i} and back leads from ${s} to ${here()}`);
  }
}

// The outcomes are those that `outcomes` lists, in its order, with as many turns at least.
function ends() {
  const texts = outcomes.map(it => {
    const s = it.ends[0], lists = states[s].lines.map((line, number) => "line " + number + " " + listIn(line));
    return openNodes.map(i => "node " + i + " " + states[s].answers[i]).concat(lists).join("\n") + "\n";
  });
  expect(COUNT === trialWanted.states, `it has ${COUNT} states`);
  expect(texts.join("|") === trialWanted.outcomes.map(it => it.text).join("|"), `its outcomes are ${texts.join("|")}`);
  outcomes.forEach((it, n) => {
    const wanted = trialWanted.outcomes[n], way = wayTo(it, 0);
    setPath(way);
    show();
    expect(wanted && way.length === wanted.turns && outcomeOf.get(here()) === it, `outcome ${it.letter} takes ${way.length} turns`);
  });
}

// An event is shown by as few turns as can be.
function nearest() {
  for (const name of events) {
    const isIt = it => it.what.endsWith(" Done") && /^\w+/.exec(it.what)[0] === name;
    const least = Math.min(...trialTurns.flatMap((list, s) => list.some(isIt) ? [trialWays[s].length + 1] : [])), way = shortest(0, () => false, isIt);
    expect(way !== null && way.length === least, `event ${name} takes ${way && way.length} turns, and not ${least}`);
  }
}

// Runs by chance: each as a script, and what the page says that it prints.
function runs() {
  let seed = 11;
  const chance = most => { seed = (seed * 1103515245 + 12345) % 2147483648; return Math.floor(seed / 2147483648 * most); };
  const all = [];
  for (let k = 0; k < 8; k += 1) {
    setPath([]);
    const prints = [], most = k % 2 ? 200 : chance(30);
    while (path.length < most) {
      const open = openNodes.filter(i => edge(here(), i));
      if (!open.length) break;
      const i = open[chance(open.length)], it = edge(here(), i);
      pick(i);
      if (it.name === "waits") prints.push("node " + i + " waits");
      if (it.answer) prints.push("node " + i + " " + it.answer);
    }
    for (const line of usedLines) prints.push("line " + line + " " + listIn(states[here()].lines[line]));
    all.push({ script: scriptText(), prints });
  }
  return all;
}

// A link to a place that names no node leads nowhere.
function brokenLink() {
  history.replaceState(null, "", "#path=" + openNodes[0] + ",,1");
  fromHash();
  show();
  expect(path.length === 0 && id("note").textContent.startsWith("The link"), `a link without a node leads to ${path}`);
}

function keys() {
  restart();
  take(openNodes[0]);
  const after = here(), hash = location.hash;
  press("ArrowLeft");
  press("ArrowRight");
  expect(here() === after && hash === "#path=" + openNodes[0], `left and right lead to ${here()}, and the link is ${hash}`);
  restart();
  press("h");
  expect(document.querySelector(".card .ev").textContent === "?", "it shows what is to be guessed");
  press("h");
  press("r");
  expect(here() === 0 && location.hash === "", "R leads elsewhere");
  document.querySelector("#map canvas").dispatchEvent(new MouseEvent("click", { clientX: 0, clientY: 0 }));
  const canvas = document.querySelector("#map canvas"), box = canvas.getBoundingClientRect(), last = bubbleOf[outcomes[0].ends[0]], [x, y] = spot(last);
  canvas.dispatchEvent(new MouseEvent("click", { clientX: box.left + x, clientY: box.top + y }));
  expect(bubbleOf[here()] === last, `a click on the map leads to ${here()}`);
  restart();
}

function played() {
  const step = trialWanted.isWhole ? 1 : Math.ceil(COUNT / 40);
  let turns = 0;
  history.replaceState = () => undefined; // a browser allows few in a time
  for (let s = 0; s < COUNT && trialFaults.length === 0; s += step) {
    moves(s);
    turns += trialTurns[s].length;
  }
  if (trialFaults.length === 0) ends();
  if (trialFaults.length === 0) nearest();
  delete history.replaceState;
  if (trialFaults.length === 0 && openNodes.length) brokenLink();
  if (trialFaults.length === 0 && openNodes.length) keys();
  expect(id("race").textContent === trialWanted.title, `its title is ${id("race").textContent}`);
  expect(/^list \d+$/m.test(scriptText()), "its script prints no list");
  expect(document.documentElement.scrollWidth <= innerWidth, `it is ${document.documentElement.scrollWidth} wide`);
  parent.postMessage({ states: COUNT, turns, outcomes: outcomes.length, bubbles: bubbles.size, runs: runs(), faults: trialFaults }, "*");
}

try {
  played();
} catch (error) {
  blame("trial: " + error);
  parent.postMessage({ states: 0, turns: 0, outcomes: 0, bubbles: 0, runs: [], faults: trialFaults }, "*");
}

"use strict";

// What is pointed at is marked wherever its nodes stand: each such element has their numbers in `data-n`.

const data = JSON.parse(document.getElementById("data").textContent);

const all = (query, within = document) => [...within.querySelectorAll(query)];
const nodesOf = element => (element.dataset.n ? element.dataset.n.split(" ").map(Number) : []);

// An element with texts and elements within it. No text is ever read as markup.
function made(name, attributes, ...content) {
  const element = document.createElement(name);
  for (const [key, value] of Object.entries(attributes)) element.setAttribute(key, value);
  element.append(...content);
  return element;
}

// -- the box that tells of what is pointed at

const box = document.getElementById("sel");
const MOST = 40;

function titleOf(nodes, row, isFirst) {
  if (row) return (isFirst ? "The costliest: line " : "Line ") + row.id.slice(1);
  const lines = [...new Set(nodes.map(it => data.nodes[it][1]))].sort((a, b) => a - b);
  if (lines.length === 1) return "Line " + lines[0];
  return "Lines " + (lines.length > 8 ? `${lines[0]} to ${lines[lines.length - 1]}` : lines.join(", "));
}

function tableOf(nodes) {
  const hasCaller = nodes.some(it => data.nodes[it][7]);
  const hasEntry = nodes.some(it => data.nodes[it][3]);
  const heads = ["part", hasCaller && "called", "in a run", hasEntry && "per loop entry", data.counted && "counted"];
  const head = [...heads, "cost", "share", "node"].filter(Boolean).map(it => made("th", {}, it));
  const rows = nodes.slice(0, MOST).map(it => {
    const [text, , count, entry, cost, share, name, caller, counted] = data.nodes[it];
    const cells = [
      made("td", { title: text }, made("code", {}, text)),
      hasCaller && made("td", {}, caller),
      made("td", {}, made("b", {}, count)),
      hasEntry && made("td", {}, entry),
      data.counted && made("td", {}, counted),
      made("td", {}, cost),
      made("td", {}, share),
      made("td", { class: "nm", title: name }, it),
    ];
    return made("tr", {}, ...cells.filter(Boolean));
  });
  return made("table", {}, made("tr", {}, ...head), ...rows);
}

function tell(element, nodes, row) {
  box.classList.toggle("idle", !element);
  const isFirst = !element;
  if (isFirst) {
    row = costly[0];
    nodes = row ? nodesOf(row) : [];
  }
  if (!row && !nodes.length) {
    box.replaceChildren();
  } else if (!nodes.length) {
    const hint = made("p", { class: "hint" }, "No way through the program leads here.");
    box.replaceChildren(made("h2", {}, "Line " + row.id.slice(1)), hint);
  } else {
    const left = nodes.length - MOST;
    const more = left > 0 ? [made("p", { class: "hint" }, `and ${left} more`)] : [];
    box.replaceChildren(made("h2", {}, titleOf(nodes, row, isFirst)), tableOf(nodes), ...more);
  }
}

// -- marking

const rows = all(".row[tabindex]");
const shareOf = row => parseInt(row.querySelector(".sh").textContent) || 0;
const costly = rows
  .filter(it => it.querySelector(".sh").textContent)
  .sort((a, b) => shareOf(b) - shareOf(a) || a.dataset.l - b.dataset.l);
const alarmed = rows.filter(it => it.querySelector(".alarm"));
const marked = all("[data-n]").map(it => [it, new Set(nodesOf(it))]);
const edges = all("[data-e]").map(it => [it, it.dataset.e.split(" ").map(Number)]);
let kept = null;

function show(element) {
  const nodes = new Set(element ? nodesOf(element) : []);
  for (const [it, own] of marked) {
    // A list of several nodes is marked only where it is pointed at itself.
    const byNode = own.size === 1 || it.classList.contains("row") || it.classList.contains("t");
    const meets = byNode ? [...own].some(node => nodes.has(node)) : it === element;
    it.classList.toggle("on", nodes.size > 0 && meets);
  }
  for (const [it, [source, target]] of edges) {
    it.classList.toggle("on", nodes.size > 0 && nodes.size < 4 && (nodes.has(source) || nodes.has(target)));
  }
  all(".row.here").forEach(it => it.classList.remove("here"));
  const row = element && element.closest(".row");
  if (row) row.classList.add("here");
  tell(element, [...nodes], row);
}

// -- pointing and clicking

const targetOf = event => event.target.closest && event.target.closest("[data-n]");
const isNever = element => element.classList.contains("dead") || element.classList.contains("noway");
let over = null;

function pointed(event) {
  const target = targetOf(event);
  if (target === over) return;
  over = target;
  if (event.target.closest && event.target.closest("#sel")) return;
  show(target && (target.dataset.n || isNever(target)) ? target : kept);
}

function followToGraph(element) {
  const node = nodesOf(element)[0];
  const inGraph = node !== undefined && document.querySelector(`.node[data-n="${node}"]`);
  const panel = document.querySelector("aside");
  if (!inGraph || getComputedStyle(panel).position !== "sticky") return;
  const place = inGraph.getBoundingClientRect();
  const within = panel.getBoundingClientRect();
  if (place.top < within.top + box.offsetHeight || place.bottom > within.bottom) {
    panel.scrollTop += place.top - within.top - within.height / 2;
  }
}

function followToSource(element) {
  const row = document.getElementById("L" + element.dataset.go);
  row.scrollIntoView({ block: "center" });
  row.classList.add("here");
}

function keep(element) {
  kept = element;
  show(element);
  if (element.closest(".rows")) followToGraph(element);
  else if (element.dataset.go) followToSource(element);
}

function letGo() {
  kept = null;
  show(null);
}

function clicked(event) {
  if (event.target.closest("select, summary, a[href]")) return;
  const target = targetOf(event);
  if (!target) {
    if (!event.target.closest("#sel")) letGo();
    return;
  }
  keep(target);
  const stop = event.target.closest("[tabindex]");
  if (stop) {
    makeStop(stop);
    stop.focus({ preventScroll: true });
  }
}

function focused(event) {
  const target = targetOf(event);
  if (target && target.hasAttribute("tabindex")) {
    kept = target;
    show(target);
  }
}

// -- the keyboard: each list is one stop, and arrows move within it

const lists = [rows, ...all("aside .sec").map(it => all(".item, .node", it))].filter(it => it.length);
const listOf = element => lists.find(it => it.includes(element));
const isFolded = element => element.closest("details:not([open])");

function makeStop(element) {
  for (const it of listOf(element) || []) it.setAttribute("tabindex", it === element ? 0 : -1);
}

function go(element) {
  if (!element) return;
  makeStop(element);
  const folded = isFolded(element);
  if (folded) folded.open = true;
  element.focus({ preventScroll: true });
  element.scrollIntoView({ block: "nearest" });
}

function goRound(list, by) {
  if (!list.length) return;
  const at = list.indexOf(document.activeElement);
  const first = by > 0 ? 0 : list.length - 1;
  go(list[at < 0 ? first : (at + by + list.length) % list.length]);
  document.activeElement.scrollIntoView({ block: "center" });
}

function goAcross(here, list) {
  if (list && list !== rows) {
    go(document.getElementById("L" + (here.dataset.go || 1)).closest("[tabindex]") || rows[0]);
    return;
  }
  const node = list ? nodesOf(here)[0] : undefined;
  go((node !== undefined && document.querySelector(`.node[data-n="${node}"]`)) || lists[1][0]);
}

function goWithin(list, here, key) {
  const seen = list.filter(it => !isFolded(it));
  const last = seen.length - 1;
  const at = seen.indexOf(here);
  const next = { ArrowDown: at + 1, j: at + 1, ArrowUp: at - 1, k: at - 1, Home: 0, End: last }[key];
  go(seen[Math.max(0, Math.min(last, next))]);
}

function pressed(event) {
  if (event.target.closest("select") || event.ctrlKey || event.metaKey || event.altKey) return;
  const { key } = event;
  const here = document.activeElement;
  const list = listOf(here);
  const moves = ["ArrowDown", "ArrowUp", "j", "k", "Home", "End"];
  if (key === "Escape") letGo();
  else if (key === "n" || key === "p") goRound(costly, key === "n" ? 1 : -1);
  else if (key === "a" || key === "A") goRound(alarmed, key === "a" ? 1 : -1);
  else if (key === "g") goAcross(here, list);
  else if (list && moves.includes(key)) goWithin(list, here, key);
  else if (list && (key === "Enter" || key === " ")) keep(here);
  else if (here === document.body && (key === "ArrowDown" || key === "j")) go(rows[0]);
  else return;
  event.preventDefault();
}

// -- one call of a function alone, or all of them

function choose(select) {
  const facts = data.variants[select.dataset.f][select.value === "" ? 0 : Number(select.value) + 1];
  for (const [line, [count, share, level, state, parts]] of Object.entries(facts)) {
    const row = document.getElementById("L" + (Number(line) + 1));
    row.querySelector(".ct").textContent = count;
    row.querySelector(".sh").textContent = share;
    row.querySelector(".parts").textContent = parts;
    row.className = row.className.replace(/\bh\d\b/, "h" + level).replace(/\b(live|dead|noway|none)\b/, state);
  }
}

if (data.nodes) {
  lists.forEach(it => it[0].setAttribute("tabindex", 0));
  document.addEventListener("mouseover", pointed);
  document.addEventListener("click", clicked);
  document.addEventListener("focusin", focused);
  document.addEventListener("keydown", pressed);
  all("select[data-f]").forEach(it => it.addEventListener("change", () => choose(it)));
  addEventListener("beforeprint", () => all("details").forEach(it => (it.open = true)));
  show(null);
}

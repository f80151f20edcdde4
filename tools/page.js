// Shows the strips and the entries that are in sight, marks the entry that is chosen, zooms, and searches.
"use strict";
const data = JSON.parse(document.getElementById("data").textContent);
const find = name => document.querySelector(name);
const main = find("main"), nav = find("nav"), box = find(".strips"), list = find("nav ol"), tip = find(".tip");
const total = data.entries.length, gap = 10;
const BEGIN = 0, END = 1, WIDTH = 2, HEIGHT = 3, MARKED = 4, SVG = 5;
// The letters that can't be read from far away.
const SMALL = /<text class="(?!place|death-word|join-word)[^]*?<\/text>/g;
const KIND = 0, WORDS = 1, LINE = 2, SOURCE = 3;

// Where each row of the list begins, and behind them where the last one ends.
const tops = [0];
for (const it of data.entries) tops.push(tops[tops.length - 1] + (it[SOURCE] ? 38 : 22));

// A level of zoom: strips of one set, so many beside one another.
const widest = data.sets[data.sets.length - 1];
const levels = data.sets.map(set => ({ set, beside: 1 }));
for (const beside of [2, 3, 4]) if (widest.strips.length >= beside) levels.push({ set: widest, beside });
let level = 0, scale = 1, lines = [], chosen = -1, wanted = "";

// The last of so many things that begins at a height or above it.
function lastAt(count, topOf, y) {
  let low = 0, high = count - 1;
  while (low < high) {
    const middle = (low + high + 1) >> 1;
    if (topOf(middle) <= y) low = middle; else high = middle - 1;
  }
  return low;
}

const lineAt = y => lastAt(lines.length, i => lines[i].top, y);

function bestLevel() {
  const off = it => Math.abs(Math.log(scaleOf(it)));
  return levels.reduce((best, it, i) => (off(it) < off(levels[best]) ? i : best), 0);
}

function scaleOf({ set, beside }) {
  return (main.clientWidth - 24 - gap * (beside - 1)) / beside / set.strips[0][WIDTH];
}

// Gives each line of strips its place; `placeOf` then knows where each entry is.
function layOut() {
  const { set, beside } = levels[level];
  scale = Math.min(scaleOf(levels[level]), set === widest ? 1.6 : 2.2);
  lines = [];
  let top = 0;
  for (let i = 0; i < set.strips.length; i += beside) {
    const strips = set.strips.slice(i, i + beside);
    lines.push({ top, first: i, strips });
    top += Math.max(...strips.map(it => it[HEIGHT])) * scale + gap;
  }
  box.style.height = top + "px";
  box.replaceChildren();
  find(".zoom").textContent = Math.min(set.columns * beside, total) + " in a line";
}

function placeOf(n) {
  const { set, beside } = levels[level];
  const at = Math.floor(n / set.columns), line = lines[Math.floor(at / beside)], strip = set.strips[at];
  return { strip, top: line.top, y: line.top + strip[MARKED][n - strip[BEGIN]] * scale };
}

function stripElement(strip, at, line) {
  const made = document.createElement("div");
  made.className = "strip";
  made.dataset.at = at;
  const left = (at - line.first) * (widest.strips[0][WIDTH] * scale + gap);
  made.style.cssText = `left:${left}px;top:${line.top}px;width:${strip[WIDTH] * scale}px;height:${strip[HEIGHT] * scale}px`;
  made.innerHTML = `<svg role="img" aria-label="entries ${strip[BEGIN]} to ${strip[END] - 1}; the list tells the same" ` +
    `viewBox="0 0 ${strip[WIDTH]} ${strip[HEIGHT]}">${scale < 0.5 ? strip[SVG].replace(SMALL, "") : strip[SVG]}</svg>`;
  mark(made);
  return made;
}

// Marks the chosen entry in a strip that is shown.
function mark(element) {
  const strip = levels[level].set.strips[element.dataset.at];
  const old = element.querySelector("i");
  if (old) old.remove();
  if (chosen < strip[BEGIN] || chosen >= strip[END]) return;
  const cursor = element.appendChild(document.createElement("i"));
  cursor.style.left = (data.edge + (chosen - strip[BEGIN]) * data.column) * scale + "px";
  cursor.style.width = data.column * scale + "px";
}

// Has those strips in the page that are in sight, and so many screens above and below. Some more may stay.
function showStrips(around = 0.5) {
  const at = screens => lineAt(main.scrollTop + screens * main.clientHeight);
  const from = at(-around), to = at(1 + around), first = lines[at(-1 - around)].first, last = lines[at(2 + around)];
  const kept = new Set();
  for (const element of [...box.children]) {
    const number = Number(element.dataset.at);
    if (number < first || number >= last.first + last.strips.length) element.remove();
    else kept.add(number);
  }
  for (const line of lines.slice(from, to + 1)) {
    line.strips.forEach((strip, i) => {
      if (!kept.has(line.first + i)) box.append(stripElement(strip, line.first + i, line));
    });
  }
  showWindow();
}

// Has the strips in the page that are in sight, and those round them a little later.
let later = 0;
function showSight() {
  showStrips(0);
  clearTimeout(later);
  later = setTimeout(showStrips, 100);
}

// Frames, in the overview, what is in sight.
function showWindow() {
  const frame = find(".overview i");
  if (!frame || !total) return;
  const first = lines[lineAt(main.scrollTop)], last = lines[lineAt(main.scrollTop + main.clientHeight)];
  const begin = first.strips[0][BEGIN], end = last.strips[last.strips.length - 1][END];
  frame.style.left = 100 * begin / total + "%";
  frame.style.width = `max(4px, ${100 * (end - begin) / total}%)`;
}

function showList(all) {
  const from = all ? 0 : Math.max(0, lastAt(total, i => tops[i], nav.scrollTop) - 10);
  const to = all ? total : Math.min(total, lastAt(total, i => tops[i], nav.scrollTop + nav.clientHeight) + 10);
  list.replaceChildren(...data.entries.slice(from, to).map((it, i) => rowElement(it, from + i)));
}

function rowElement(it, n) {
  const row = document.createElement("li");
  row.className = it[KIND] + (n === chosen ? " on" : "");
  row.dataset.n = n;
  row.title = it[WORDS] + "\n" + it[LINE];
  row.style.top = tops[n] + "px";
  row.style.height = tops[n + 1] - tops[n] + "px";
  const part = (name, text) => { row.appendChild(document.createElement(name)).textContent = text; };
  part("b", n);
  part("span", it[WORDS]);
  if (it[SOURCE]) part("small", it[SOURCE]);
  return row;
}

// Scrolls, where what lies from `top` to `bottom` is not in sight, so that it is in the middle.
function reveal(element, top, bottom) {
  const seen = element.scrollTop, high = element.clientHeight;
  if (top < seen || bottom > seen + high) element.scrollTop = (top + bottom - high) / 2;
}

function choose(n, from) {
  if (!total) return;
  chosen = Math.max(0, Math.min(total - 1, n));
  if (from !== "list") reveal(nav, tops[chosen], tops[chosen + 1]);
  if (from !== "picture") {
    const { y, top, strip } = placeOf(chosen), bottom = top + strip[HEIGHT] * scale;
    const isTall = bottom - top > main.clientHeight;
    reveal(main, isTall ? y - 40 : top, isTall ? y + 60 : bottom);
  }
  showSight();
  [...box.children].forEach(mark);
  showList();
  history.replaceState(null, "", "#" + chosen);
}

// The entry that stays where it is when the picture changes its size: the chosen one, or else one in the middle.
function anchor() {
  const isSeen = n => { const y = placeOf(n).y - main.scrollTop; return y > 0 && y < main.clientHeight; };
  if (chosen >= 0 && isSeen(chosen)) return chosen;
  return lines[lineAt(main.scrollTop + main.clientHeight / 2)].strips[0][BEGIN];
}

function zoomTo(next) {
  if (!total) return;
  const kept = anchor(), y = placeOf(kept).y - main.scrollTop;
  level = Math.max(0, Math.min(levels.length - 1, next));
  layOut();
  main.scrollTop = placeOf(kept).y - y;
  showSight();
}

// The next entry of a kind after the chosen one (or before it), round the end.
function jump(isOne, back) {
  const from = Math.max(chosen, back ? 0 : -1);
  for (let i = 1; i <= total; i++) {
    const n = (from + (back ? -i : i) + 2 * total) % total;
    if (isOne(data.entries[n], n)) return choose(n);
  }
}

const isDeath = it => it[KIND].startsWith("death"), isLoss = it => it[KIND].startsWith("loss");
const isHit = (it, n) => hits.has(n);
let hits = new Set();

function search(text) {
  wanted = text.trim().toLowerCase();
  hits = new Set();
  if (/^\d+$/.test(wanted) && Number(wanted) < total) choose(Number(wanted));
  if (wanted) {
    const escaped = wanted.replace(/[.*+?^${}()|[\]\\]/g, "\\$&");
    const pattern = new RegExp((/^\w/.test(wanted) ? "\\b" : "") + escaped + (/\d$/.test(wanted) ? "(?!\\d)" : ""), "i");
    data.entries.forEach((it, n) => { if ([it[WORDS], it[LINE], it[SOURCE]].some(part => pattern.test(part))) hits.add(n); });
  }
  countHits();
}

function countHits() {
  const at = [...hits].indexOf(chosen) + 1;
  find(".hits").textContent = wanted ? (at ? at + " of " : "") + hits.size + (hits.size === 1 ? " hit" : " hits") : "";
}

const acts = {
  in: () => zoomTo(level - 1), out: () => zoomTo(level + 1), fit: () => zoomTo(bestLevel()),
  death: back => jump(isDeath, back), loss: back => jump(isLoss, back), hit: back => { jump(isHit, back); countHits(); },
};
const keys = { "+": "in", "=": "in", "-": "out", 0: "fit", d: "death", l: "loss", n: "hit" };

document.addEventListener("keydown", event => {
  if (event.ctrlKey || event.metaKey || event.altKey) return;
  const input = find("input");
  if (event.target === input) {
    if (event.key === "Enter") acts.hit(event.shiftKey);
    if (event.key === "Escape") { input.value = ""; search(""); input.blur(); }
    return;
  }
  const moves = { ArrowRight: 1, ArrowDown: 1, j: 1, ArrowLeft: -1, ArrowUp: -1, k: -1, PageDown: 20, PageUp: -20 };
  const act = keys[event.key] || keys[event.key.toLowerCase()];
  if (event.key in moves) choose(chosen + moves[event.key]);
  else if (event.key === "Home") choose(0);
  else if (event.key === "End") choose(total - 1);
  else if (event.key === "/") input.focus();
  else if (act) acts[act](event.shiftKey && /[a-z]/i.test(event.key));
  else return;
  event.preventDefault();
});
find(".controls").addEventListener("click", event => {
  if (event.target.dataset.do) acts[event.target.dataset.do](event.shiftKey);
});
find("input").addEventListener("input", event => search(event.target.value));
list.addEventListener("click", event => {
  const row = event.target.closest("li");
  if (row) choose(Number(row.dataset.n), "list");
});

// The entry under the pointer in a strip.
function entryAt(event) {
  const element = event.target.closest(".strip");
  if (!element) return -1;
  const strip = levels[level].set.strips[element.dataset.at];
  const at = Math.floor(((event.clientX - element.getBoundingClientRect().left) / scale - data.edge) / data.column);
  return at < 0 || strip[BEGIN] + at >= strip[END] ? -1 : strip[BEGIN] + at;
}

box.addEventListener("click", event => {
  const n = entryAt(event);
  if (n >= 0) choose(n, "picture");
});
box.addEventListener("pointermove", event => {
  const group = event.target.closest("[data-t]"), n = entryAt(event);
  const said = [];
  if (group) said.push(data.lives[group.dataset.t]);
  if (n >= 0) said.push(n + ": " + data.entries[n][WORDS]);
  tip.hidden = !group;
  tip.textContent = said.join("\n");
  tip.style.left = Math.min(event.clientX + 12, innerWidth - tip.offsetWidth - 8) + "px";
  tip.style.top = event.clientY + (event.clientY + tip.offsetHeight + 24 > innerHeight ? -tip.offsetHeight - 8 : 16) + "px";
});
box.addEventListener("pointerleave", () => { tip.hidden = true; });
const whole = find(".overview");
if (whole) {
  whole.addEventListener("click", event => {
    const at = whole.getBoundingClientRect();
    choose(Math.floor((event.clientX - at.left) / at.width * total));
  });
}

main.addEventListener("scroll", showSight);
nav.addEventListener("scroll", () => showList());
addEventListener("resize", () => { zoomTo(bestLevel()); showList(); });
addEventListener("beforeprint", () => { showStrips(Infinity); showList(true); });
addEventListener("afterprint", () => { showStrips(); showList(); });
if (innerWidth < 700) find("details").open = false;
list.style.height = tops[total] + "px";
level = bestLevel();
layOut();
showSight();
showList();
if (/^#\d+$/.test(location.hash)) choose(Number(location.hash.slice(1)));

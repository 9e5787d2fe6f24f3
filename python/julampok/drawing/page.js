"use strict";
// Draws the charts of the attempts and the text of the log out of the data that the page holds. Nothing is loaded.
const data = unpacked(JSON.parse(document.getElementById("data").textContent));
const GAP = 0.035, GAPS = 0.3, MOST_ZOOM = 15000, TICK = 95, MARGIN = 0.02, STEP = 0.25, BLOCK = 40;
const isTimed = data.unit === "ms", charts = new Map(), DEVICE = data.texts.indexOf("device");
const escaped = (text) => text.replace(/[&<>"]/g, (sign) => ({ "&": "&amp;", "<": "&lt;", ">": "&gt;", '"': "&quot;" })[sign]);
const percent = (share) => `${(share * 100).toFixed(6)}%`;
const grouped = (number, digits) => number.toLocaleString("en-US", { minimumFractionDigits: digits, maximumFractionDigits: digits });

function lasting(size) {
  if (!isTimed) return `${size} ${size === 1 ? "line" : "lines"}`;
  const ms = size / 1000;
  return `${grouped(ms, ms < 10 ? (ms < 1 ? 3 : 2) : ms < 100 ? 1 : 0)} ms`;
}
const answered = (answer) => (/^(E|-?\d)/.test(answer) ? ` answered ${answer}` : `, ${answer}`);
const moment = (time) => (isTimed ? `at ${grouped(time / 1000, 3)} ms` : `in line ${time}`);

// The lines of a text whose words are in a table, from one to another; and the numbers of a column.
function linesOf(pack, from = 0, to = pack.lines.length) {
  return pack.lines.slice(from, to).map((line) => line.replace(/[\u0100-\ud7ff]/g, (code) => pack.words[code.charCodeAt(0) - 256]));
}
function numbersOf(column) {
  if (Array.isArray(column)) return column;
  const numbers = [];
  if (column.steps) for (const step of column.steps) numbers.push((numbers.at(-1) ?? 0) + step);
  else for (let place = 0; place < column.runs.length; place += 2) for (let count = column.runs[place + 1]; count > 0; count--) numbers.push(column.runs[place]);
  return numbers;
}
function unpacked(data) {
  data.texts = linesOf(data.texts);
  for (const attempt of data.attempts)
    for (const table of [attempt.marks, attempt.ties])
      for (const name in table) table[name] = numbersOf(table[name]);
  for (const { marks } of data.attempts) marks.last = marks.first.map((first, place) => first + marks.more[place]);
  for (const attempt of data.attempts) {
    const { kind, source, sourceAt, target, targetAt, words, last } = attempt.ties;
    attempt.ties = kind.map((_, place) => ({ kind: data.texts[kind[place]], source: source[place], sourceAt: sourceAt[place],
      target: target[place], targetAt: targetAt[place], words: data.texts[words[place]], last: last[place] }));
  }
  return data;
}

// An element with attributes, children and text; a text never becomes markup.
function made(tag, attributes = {}, ...inside) {
  const element = document.createElement(tag);
  for (const [name, value] of Object.entries(attributes))
    if (name === "onclick") element.addEventListener("click", value);
    else element.setAttribute(name, value);
  element.append(...inside);
  return element;
}

// Where a time stands across, 0 to 1: stretches in which nothing happens are drawn narrow.
class Axis {
  constructor(attempt) {
    const { begin, end, gaps } = attempt, narrow = Math.min(GAP, GAPS / Math.max(1, gaps.length));
    const rest = Math.max(1, end - begin - gaps.reduce((sum, gap) => sum + gap[1] - gap[0], 0));
    this.pieces = [];
    let time = begin, share = 0;
    const add = (to, wide, words) => {
      if (to > time) this.pieces.push({ from: time, to, left: share, right: share + wide, words });
      [time, share] = [to, share + (to > time ? wide : 0)];
    };
    for (const [from, to, words] of gaps) {
      add(from, ((from - time) / rest) * (1 - narrow * gaps.length));
      add(to, narrow, data.texts[words]);
    }
    add(Math.max(end, time + 1), ((Math.max(end, time + 1) - time) / rest) * (1 - narrow * gaps.length));
  }
  x(time) {
    for (const piece of this.pieces)
      if (time <= piece.to) {
        const part = Math.max(0, (time - piece.from) / (piece.to - piece.from));
        return piece.left + part * (piece.right - piece.left);
      }
    return 1;
  }
}

// Fills the blocks of rows that come near to what is seen.
const nearness = new IntersectionObserver((entries) => {
  for (const { target, isIntersecting } of entries) if (isIntersecting) charts.get(target.closest(".chart"))?.fill(target.block);
}, { rootMargin: "600px" });
const later = (work) => (window.requestIdleCallback ? requestIdleCallback(work, { timeout: 500 }) : setTimeout(work, 20));

// One of 1, 2 and 5 times a power of ten, at least so much.
function niceStep(least) {
  const power = 10 ** Math.floor(Math.log10(least));
  return [1, 2, 5, 10].map((times) => times * power).find((step) => step >= least * 0.999);
}

class Chart {
  constructor(element, attempt) {
    this.element = element;
    this.attempt = attempt;
    this.axis = new Axis(attempt);
    this.zoom = 1;
    this.from = 0;
    this.rows = new Map();
    this.blocks = [];
    this.blockOf = new Map();
    this.sheet = document.head.appendChild(document.createElement("style")).sheet;
    this.sheet.insertRule(`.chart[data-attempt="${element.dataset.attempt}"] .track {}`);
    this.collect();
    element.innerHTML =
      `<div class="head"><div class="row axis"><div class="name"></div><div class="lane"><div class="track ticks"></div></div></div>` +
      `<div class="row"><div class="name"><small>stage</small></div><div class="lane"><div class="track stages">${this.stages()}</div></div></div></div>` +
      `<div class="body"><div class="under"><div class="track">${this.tints()}</div></div><div class="over"><div class="track"></div></div>` +
      attempt.groups.map((group, place) => this.group(group, place)).join("") + "</div>";
    this.ticks = element.querySelector(".ticks");
    this.lane = element.querySelector(".lane");
    attempt.groups.forEach((group, place) => group[2] || this.lay(place));
    this.show(0, 1);
    this.tie();
    this.fillRest();
  }

  // The marks of each row, and their totals.
  collect() {
    const { marks, path } = this.attempt;
    this.of = new Map();
    this.steps = new Map();
    marks.row.forEach((row, place) => (this.of.get(row) || this.of.set(row, []).get(row)).push(place));
    const counts = new Map();
    for (const [mark, phase] of path) {
      if (mark < 0) continue;
      counts.set(phase, (counts.get(phase) || 0) + 1);
      this.steps.set(mark, counts.get(phase));
    }
  }
  stages() {
    return this.attempt.stages.map(([name, kind, begin, end, , , answer], place) => {
      const left = this.axis.x(begin), words = `${data.texts[name]}${isTimed ? " " + lasting(end - begin) : ""}${answer ? ": " + data.texts[answer] : ""}`;
      return `<button type="button" class="stage k-${data.texts[kind]}${answer ? " bad" : ""}" data-stage="${place}" tabindex="-1" ` +
        `style="left:${percent(left)};width:${percent(Math.max(0, this.axis.x(end) - left))}"><span>${escaped(words)}</span></button>`;
    }).join("") + this.gapMarks(true);
  }
  tints() {
    const bands = this.attempt.stages.filter((stage) => stage[1]).map(([, kind, begin, end]) =>
      `<div class="tint k-${data.texts[kind]}" style="left:${percent(this.axis.x(begin))};width:${percent(this.axis.x(end) - this.axis.x(begin))}"></div>`);
    return bands.join("") + this.gapMarks(false);
  }
  gapMarks(hasWords) {
    return this.axis.pieces.filter((piece) => piece.words).map((piece) =>
      `<div class="gap" style="left:${percent(piece.left)};width:${percent(piece.right - piece.left)}"${hasWords ? ` title="${escaped(piece.words)}"` : ""}>` +
      `${hasWords ? escaped(piece.words) : ""}</div>`).join("");
  }
  group([title, , isFolded, tone], place) {
    const words = escaped(data.texts[title]);
    const head = isFolded ? `<button type="button" class="title" data-fold="${place}" aria-expanded="false">${words}</button>` : `<div class="title">${words}</div>`;
    return `<div class="group ${data.texts[tone]}">${head}<div class="rows" data-group="${place}"${isFolded ? " hidden" : ""}></div></div>`;
  }
  // Lays out the rows of a group in blocks, once. A block is filled when it comes near, or when there is time.
  lay(place) {
    const inside = this.element.querySelector(`.rows[data-group="${place}"]`), rows = this.attempt.groups[place][1];
    if (inside.childElementCount) return;
    for (let first = 0; first < rows.length; first += BLOCK) {
      const block = { element: made("div", { class: "block" }), rows: rows.slice(first, first + BLOCK), group: place, isFilled: false };
      block.element.style.setProperty("--rows", block.rows.length);
      block.element.block = block;
      for (const row of block.rows) this.blockOf.set(row, block);
      this.blocks.push(block);
      inside.append(block.element);
      nearness.observe(block.element);
    }
  }
  fill(block) {
    if (block.isFilled) return;
    block.isFilled = true;
    nearness.unobserve(block.element);
    block.element.innerHTML = block.rows.map((row) => this.row(row, this.attempt.groups[block.group][4])).join("");
    for (const element of block.element.children) this.rows.set(Number(element.dataset.row), element);
  }
  fillRest() {
    const block = this.blocks.find((other) => !other.isFilled);
    if (!block) return;
    later(() => {
      this.fill(block);
      this.fillRest();
    });
  }
  // The element of a row, wherever it is; null where its group is folded.
  elementOf(row) {
    const block = this.blockOf.get(row);
    if (!block) return null;
    this.fill(block);
    return this.rows.get(row);
  }
  row(number, isTree) {
    const [, name, about, , depth] = data.rows[number], places = this.of.get(number) || [];
    const total = isTimed ? places.reduce((sum, place) => sum + (this.attempt.marks.flags[place] & 1 ? this.attempt.marks.size[place] : 0), 0) : 0;
    return `<div class="row" data-row="${number}"><button type="button" class="name" style="--deep:${isTree ? Math.min(depth, 8) : 0}"><span>${escaped(name)}</span>` +
      `<small>${escaped(data.texts[about])}</small>${total ? `<b>${lasting(total)}</b>` : ""}</button>` +
      `<div class="lane"><div class="track">${places.map((place) => this.mark(place)).join("")}</div></div></div>`;
  }
  mark(place) {
    const { kind, begin, size, answer, flags } = this.attempt.marks, left = this.axis.x(begin[place]), step = this.steps.get(place);
    const isLabelled = data.rows[this.attempt.marks.row[place]][0] !== DEVICE && !(flags[place] & 4);
    const label = isLabelled ? `<span>${escaped(data.texts[this.attempt.marks.words[place]].split(/[ ,]/)[0])}</span>` : "";
    const classes = `mark k-${data.texts[kind[place]]}${answer[place] ? " bad" : ""}${step ? " path" : ""}${flags[place] & 2 ? " open" : ""}${flags[place] & 4 ? " thin" : ""}${isLabelled ? " labelled" : ""}`;
    return `<i class="${classes}" data-mark="${place}"${step ? ` data-step="${step}"` : ""} style="left:${percent(left)};width:${percent(this.axis.x(begin[place] + size[place]) - left)}">${label}</i>`;
  }
  about(place) {
    const { row, kind, begin, size, first, last, words, answer, who, flags } = this.attempt.marks, texts = data.texts;
    const lines = first[place] === last[place] ? `line ${first[place]}` : `lines ${first[place]} to ${last[place]}`;
    const end = flags[place] & 2 ? "; no line tells its end" : "";
    const what = texts[words[place]] || texts[kind[place]];
    return `${data.rows[row[place]][1]}: ${what}${answer[place] ? answered(texts[answer[place]]) : ""}\n` +
      (isTimed ? `${moment(begin[place])}, ${lasting(size[place])}${end}\n` : "") + `${lines} of the ${data.linesOf}` + (who[place] ? `, run by ${texts[who[place]]}` : "");
  }

  // Shows the part from one share of the whole to another.
  show(from, to) {
    this.zoom = Math.min(MOST_ZOOM, Math.max(1, 1 / Math.max(1e-9, to - from)));
    this.from = Math.max(0, Math.min(from, 1 - 1 / this.zoom));
    Object.assign(this.sheet.cssRules[0].style, { left: percent(-this.from * this.zoom), width: percent(this.zoom) });
    this.drawTicks();
  }
  showTimes(begin, end) {
    const from = this.axis.x(begin), to = this.axis.x(end), margin = (to - from) * MARGIN;
    this.show(from - margin, to + margin);
  }
  scale(times, at = 0.5) {
    const middle = this.from + at / this.zoom, wide = 1 / (this.zoom * times);
    this.show(middle - at * wide, middle + (1 - at) * wide);
  }
  pan(part) {
    const wide = 1 / this.zoom, from = Math.max(0, Math.min(1 - wide, this.from + part * wide));
    this.show(from, from + wide);
  }
  drawTicks() {
    const wide = this.lane.clientWidth * this.zoom, to = this.from + 1 / this.zoom, found = [];
    for (const piece of this.axis.pieces) {
      if (piece.words || piece.right < this.from || piece.left > to) continue;
      const each = (piece.right - piece.left) / (piece.to - piece.from), step = Math.max(isTimed ? 0.1 : 1, niceStep(TICK / Math.max(1e-12, each * wide)));
      const first = piece.from + Math.max(0, this.from - piece.left) / each, last = Math.min(piece.to, piece.from + (to - piece.left) / each);
      for (let time = Math.ceil(first / step) * step; time <= last; time += step)
        if ((piece.right - this.axis.x(time)) * wide > TICK / 2 || piece.to === last)
          found.push(`<span class="tick" style="left:${percent(this.axis.x(time))}">${isTimed ? grouped(time / 1000, Math.max(0, 3 - Math.floor(Math.log10(step)))) + " ms" : `line ${time}`}</span>`);
    }
    this.ticks.innerHTML = found.join("");
    for (const stage of this.element.querySelectorAll(".stage")) {
      const left = (parseFloat(stage.style.left) / 100 - this.from) * wide, size = (parseFloat(stage.style.width) / 100) * wide;
      stage.style.textIndent = left < 0 && left + size > 0 ? `${-left}px` : "";
    }
  }

  // Lines between rows: those that tell why the attempt stopped, the longest path, and those of the chosen row.
  tie(chosen = null) {
    const heights = new Map(), lines = [], always = ["found", "woke", "stale", "left", "broken"];
    const top = this.element.querySelector(".body").getBoundingClientRect().top;
    const height = (row) => {
      if (!heights.has(row)) {
        const box = this.elementOf(row)?.getBoundingClientRect();
        heights.set(row, box?.height ? (box.top + box.bottom) / 2 - top : null);
      }
      return heights.get(row);
    };
    const line = (kind, source, sourceAt, target, targetAt) => {
      const above = height(source), below = height(target);
      if (above !== null && below !== null)
        lines.push(`<line class="tie ${kind}" x1="${percent(this.axis.x(sourceAt))}" y1="${above}" x2="${percent(this.axis.x(targetAt))}" y2="${below}" marker-end="url(#tip-${kind === "waits" ? "blue" : "red"})"/>`);
    };
    for (const { kind, source, sourceAt, target, targetAt } of this.attempt.ties)
      if (always.includes(kind) || source === chosen || target === chosen) line(kind, source, sourceAt, target, targetAt);
    const { row, begin, size } = this.attempt.marks, path = this.attempt.path.filter((step) => step[0] >= 0);
    path.slice(1).forEach(([place, phase], before) => {
      const last = path[before][0];
      if (path[before][1] === phase) line("path", row[last], begin[last] + size[last], row[place], begin[place]);
    });
    this.element.querySelector(".over .track").innerHTML = `<svg aria-hidden="true"><defs>` + ["blue:#0b4f9c", "red:#b8000e"].map((tip) => tip.split(":")).map(([name, colour]) =>
      `<marker id="tip-${name}" viewBox="0 0 8 8" refX="7" refY="4" markerWidth="8" markerHeight="8" markerUnits="userSpaceOnUse" orient="auto"><path d="M0 0L8 4L0 8z" fill="${colour}"/></marker>`).join("") +
      `</defs>${lines.join("")}</svg>`;
  }
  unfold(place, isOpen) {
    if (isOpen) this.lay(place);
    this.element.querySelector(`.rows[data-group="${place}"]`).hidden = !isOpen;
    this.element.querySelector(`[data-fold="${place}"]`)?.setAttribute("aria-expanded", isOpen);
    this.tie(chosen?.chart === this ? chosen.row : null);
    this.fillRest();
  }
  // Shows the rows with these words alone, all without words; gives how many there are.
  find(words) {
    const found = new Set();
    this.attempt.groups.forEach(([, rows, isFolded], place) => {
      const here = words.length ? rows.filter((row) => matches(row, words)) : [];
      if (isFolded) this.unfold(place, here.length > 0);
      for (const row of here) found.add(row);
    });
    for (const block of this.blocks) {
      const here = words.length ? block.rows.filter((row) => found.has(row)) : block.rows;
      block.element.hidden = here.length === 0;
      block.element.style.setProperty("--rows", here.length);
      if (words.length && here.length) this.fill(block);
      if (block.isFilled) for (const row of block.rows) this.rows.get(row).hidden = words.length > 0 && !found.has(row);
    }
    return found.size;
  }
  // Makes a row visible, wherever it is folded.
  reveal(number) {
    const place = this.attempt.groups.findIndex((group) => group[1].includes(number));
    if (place < 0) return null;
    if (this.attempt.groups[place][2]) this.unfold(place, true);
    const row = this.elementOf(number);
    row.hidden = row.parentElement.hidden = false;
    return row;
  }
}

// ---- what is chosen

let chosen = null;
const panel = document.getElementById("panel"), tip = document.getElementById("tip");

function chartOf(element) {
  const found = element.closest(".attempt")?.querySelector(".chart");
  return found ? drawn(found) : null;
}
function drawn(element) {
  if (!charts.has(element)) charts.set(element, new Chart(element, data.attempts[element.dataset.attempt]));
  return charts.get(element);
}
function choose(chart, number, isScrolled = false) {
  forget();
  const row = chart.reveal(number);
  if (!row) return;
  chosen = { chart, row: number };
  row.classList.add("chosen");
  if (isScrolled) {
    row.scrollIntoView({ block: "center" });
    row.querySelector(".name").focus({ preventScroll: true });
  }
  chart.tie(number);
  const near = chart.attempt.ties.filter((tie) => tie.kind === "waits" && tie.target === number);
  for (const { source, sourceAt } of near)
    for (const place of chart.of.get(source) || [])
      if (chart.attempt.marks.begin[place] <= sourceAt && sourceAt <= chart.attempt.marks.begin[place] + chart.attempt.marks.size[place])
        chart.element.querySelector(`[data-mark="${place}"]`)?.classList.add("near");
  tell(chart, number);
}
function forget() {
  if (!chosen) return;
  chosen.chart.rows.get(chosen.row)?.classList.remove("chosen");
  for (const element of chosen.chart.element.querySelectorAll(".near")) element.classList.remove("near");
  chosen.chart.tie();
  chosen.chart.drawTicks();
  chosen = null;
  panel.hidden = true;
  document.body.classList.remove("beside");
}
const lineLink = (line) => made("a", { href: `#L${line}` }, `line ${line}`);
const goTo = (chart, row, words = data.rows[row][1]) => made("button", { type: "button", class: "go", onclick: () => choose(chart, row, true) }, words);

// What is known of a row: where it hangs, its callbacks, whom it waited for and why, and who waited for it.
function tell(chart, number) {
  const [sort, name, about, parent, , notes] = data.rows[number], { marks, ties, path } = chart.attempt, texts = data.texts;
  const close = made("button", { type: "button", class: "close", "aria-label": "close", onclick: forget }, "\u2715");
  panel.replaceChildren(close, made("h2", {}, name), made("p", { class: "soft" }, [texts[sort], texts[about], ...notes.map((note) => texts[note])].filter(Boolean).join("; ")));
  const above = [];
  for (let at = parent; at >= 0 && above.length < 50; at = data.rows[at][3]) above.push(at);
  if (above.length) panel.append(made("p", {}, "parents: ", ...above.flatMap((at, place) => (place ? [" < ", goTo(chart, at)] : [goTo(chart, at)]))));
  const places = chart.of.get(number) || [], table = made("table");
  table.append(made("tr", {}, ...(isTimed ? ["what", "began", "took", ""] : ["what", ""]).map((head) => made("th", {}, head))));
  for (const place of places.slice(0, 300)) {
    const step = chart.steps.get(place), what = (texts[marks.words[place]] || texts[marks.kind[place]]) + (marks.answer[place] ? `: ${texts[marks.answer[place]]}` : "");
    const cells = [made("td", {}, what, step ? made("small", {}, ` ${step} on the longest path`) : "")];
    if (isTimed) cells.push(made("td", { class: "n" }, grouped(marks.begin[place] / 1000, 3)), made("td", { class: "n" }, lasting(marks.size[place])));
    cells.push(made("td", {}, lineLink(marks.first[place]), marks.who[place] ? ` by ${texts[marks.who[place]]}` : ""));
    table.append(made("tr", {}, ...cells));
  }
  panel.append(table);
  if (places.length > 300) panel.append(made("p", {}, `and ${places.length - 300} more`));
  const item = (tie) => made("li", {}, goTo(chart, tie.source === number ? tie.target : tie.source), `: ${tie.words} (`, lineLink(tie.last), ")");
  const list = (title, found) => found.length && panel.append(made("h3", {}, title), made("ul", {}, ...found.slice(0, 200).map(item)));
  const own = ties.filter((tie) => tie.source === number || tie.target === number), waits = own.filter((tie) => tie.kind === "waits");
  list("It waited", waits.filter((tie) => tie.target === number));
  list("These waited for it", waits.filter((tie) => tie.source === number));
  list("Also", own.filter((tie) => tie.kind !== "waits"));
  if (!waits.length) panel.append(made("p", { class: "soft" }, texts[chart.attempt.noWaits]));
  const steps = path.filter((step) => step[3] === number && step[2]);
  if (steps.length) panel.append(made("h3", {}, "On the longest path"), made("ul", {}, ...steps.map((step) => made("li", {}, texts[step[2]]))));
  panel.hidden = false;
  document.body.classList.add("beside");
  chart.drawTicks();
}

// ---- the text of the log

function drawText(details) {
  const pre = details.querySelector("pre");
  if (pre.childElementCount) return;
  const pack = data[details.dataset.text], letter = details.dataset.letter, parts = [];
  for (let first = 0; first < pack.lines.length; first += 200) {
    const lines = linesOf(pack, first, first + 200).map((text, place) => {
      const number = first + place + 1;
      const told = letter === "G" ? escaped(text).replace(/\(line (\d+)\)$/, '<a class="to" href="#L$1">(line $1)</a>') : escaped(text);
      return `<a id="${letter}${number}" href="#${letter}${number}">${number}</a>${told}`;
    });
    parts.push(`<div class="part">${lines.join("\n")}</div>`);
  }
  pre.innerHTML = parts.join("");
}
function goToHash() {
  const name = decodeURIComponent(location.hash.slice(1)), text = /^([LGD])\d+$/.exec(name);
  if (text) {
    const details = document.querySelector(`details.text[data-letter="${text[1]}"]`);
    if (!details) return;
    drawText(details);
    details.open = true;
    document.querySelector(".here")?.classList.remove("here");
    const line = document.getElementById(name);
    line?.classList.add("here");
    line?.scrollIntoView({ block: "center" });
  } else if (name) {
    const element = document.getElementById(name);
    if (element?.matches("details")) element.open = true;
    element?.scrollIntoView();
  }
}

// ---- search

const search = document.getElementById("search"), count = document.getElementById("count");
const matches = (number, words) => words.every((word) => `${data.rows[number][1]} ${data.texts[data.rows[number][2]]}`.toLowerCase().includes(word));

function find() {
  const words = search.value.toLowerCase().split(/\s+/).filter(Boolean);
  let found = 0;
  for (const chart of charts.values()) {
    if (!chart.element.offsetParent) continue;
    found += chart.find(words);
    chart.tie(chosen?.chart === chart ? chosen.row : null);
  }
  count.textContent = words.length ? `${found} found` : "";
}
const visibleNames = () => [...document.querySelectorAll(".attempt[open] .rows .name")].filter((name) => name.offsetParent);

// ---- hands

document.addEventListener("click", (event) => {
  const target = event.target, chart = target.closest(".attempt") && chartOf(target);
  const stage = target.closest("[data-stage]"), fold = target.closest("[data-fold]"), tool = target.closest("[data-tool]"), row = target.closest("[data-row]");
  const link = target.closest('a[href^="#"]');
  if (link && link.getAttribute("href") === location.hash) goToHash();
  if (!chart && row) {
    const first = document.querySelector(".attempt[open] .chart") || document.querySelector(".chart");
    if (first) choose(drawn(first), Number(row.dataset.row), true);
  } else if (!chart) return;
  else if (stage) {
    const [, , begin, end] = chart.attempt.stages[stage.dataset.stage];
    chart.showTimes(begin, end);
  } else if (fold) chart.unfold(Number(fold.dataset.fold), fold.getAttribute("aria-expanded") !== "true");
  else if (tool) use(chart, tool.dataset.tool);
  else if (row && target.closest(".name, .mark, .go")) choose(chart, Number(row.dataset.row), target.matches(".go"));
});
function use(chart, tool) {
  if (tool === "whole") chart.show(0, 1);
  else if (tool === "in" || tool === "out") chart.scale(tool === "in" ? 2 : 0.5);
  else chart.pan(tool === "left" ? -STEP : STEP);
}
const KEYS = { "+": "in", "=": "in", "-": "out", 0: "whole", ArrowLeft: "left", ArrowRight: "right" };
document.addEventListener("keydown", (event) => {
  if (event.ctrlKey || event.altKey || event.metaKey) return;
  if (event.target === search) {
    if (event.key === "Escape") { search.value = ""; find(); search.blur(); }
    else if (event.key === "Enter" || event.key === "ArrowDown") { visibleNames()[0]?.focus(); event.preventDefault(); }
    return;
  }
  const chart = chartOf(event.target) || chosen?.chart || [...charts.values()].find((other) => other.element.offsetParent);
  if (event.key === "/") { search.focus(); event.preventDefault(); }
  else if (event.key === "Escape") forget();
  else if (chart && event.key in KEYS) { use(chart, KEYS[event.key]); event.preventDefault(); }
  else if (event.target.matches(".name") && (event.key === "ArrowDown" || event.key === "ArrowUp")) {
    const names = visibleNames();
    names[names.indexOf(event.target) + (event.key === "ArrowDown" ? 1 : -1)]?.focus();
    event.preventDefault();
  }
});
document.addEventListener("mousemove", (event) => {
  const mark = event.target.closest?.(".mark[data-mark]"), stage = event.target.closest?.(".stage");
  tip.hidden = !mark && !stage;
  if (tip.hidden) return;
  tip.textContent = mark ? chartOf(mark).about(Number(mark.dataset.mark)) : stage.textContent;
  tip.style.left = `${Math.min(event.clientX + 12, innerWidth - tip.offsetWidth - 8)}px`;
  tip.style.top = `${event.clientY + 16 + tip.offsetHeight > innerHeight ? event.clientY - tip.offsetHeight - 8 : event.clientY + 16}px`;
});
document.addEventListener("wheel", (event) => {
  const lane = event.ctrlKey && event.target.closest?.(".chart") && event.target.closest(".lane");
  if (!lane) return;
  const box = lane.getBoundingClientRect();
  chartOf(lane).scale(event.deltaY < 0 ? 1.25 : 0.8, (event.clientX - box.left) / box.width);
  event.preventDefault();
}, { passive: false });
let drag = null;
document.addEventListener("pointerdown", (event) => {
  const lane = event.button === 0 && event.target.closest?.(".chart") && event.target.closest(".lane");
  drag = lane ? { chart: chartOf(lane), x: event.clientX, from: chartOf(lane).from, wide: lane.clientWidth } : null;
});
document.addEventListener("pointermove", (event) => {
  if (!drag || !event.buttons) return;
  const from = drag.from - (event.clientX - drag.x) / drag.wide / drag.chart.zoom;
  if (Math.abs(event.clientX - drag.x) > 3) drag.chart.show(Math.max(0, Math.min(1 - 1 / drag.chart.zoom, from)), Math.max(0, Math.min(1 - 1 / drag.chart.zoom, from)) + 1 / drag.chart.zoom);
});
search.addEventListener("input", find);
for (const details of document.querySelectorAll("details.attempt"))
  details.addEventListener("toggle", () => details.open && details.querySelector(".chart") && drawn(details.querySelector(".chart")));
for (const details of document.querySelectorAll("details.text")) details.addEventListener("toggle", () => details.open && drawText(details));
for (const details of document.querySelectorAll("details.attempt[open]")) if (details.querySelector(".chart")) drawn(details.querySelector(".chart"));
window.addEventListener("beforeprint", () => {
  for (const chart of charts.values()) for (const block of chart.blocks) chart.fill(block);
});
window.addEventListener("hashchange", goToHash);
window.addEventListener("resize", () => { for (const chart of charts.values()) if (chart.element.offsetParent) { chart.drawTicks(); chart.tie(chosen?.chart === chart ? chosen.row : null); } });
goToHash();

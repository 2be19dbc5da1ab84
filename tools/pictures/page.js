"use strict";
// What is known: the run. What is shown: a tick, a line of the trace, and a part of the picture.
const run = JSON.parse(document.getElementById("run").textContent);
const by = (id) => document.getElementById(id);
const ticks = run.trace.map((line) => Number(line.split(" ")[0]));
const moments = [...new Set(ticks)];
const titles = new Map(run.lanes.map((lane) => [lane.name, lane.words]));
let tick = 0, chosen = 0;
let from = 0, to = Math.max(run.end, 1);
const laneHeight = 30, axisHeight = 22;

// ---- small helpers

function made(kind, text, name) {
  const it = document.createElement(kind);
  if (text !== undefined) it.textContent = text;
  if (name) it.className = name;
  return it;
}

// the place of the last item of a sorted list that is at most n, or -1
function lastUpTo(list, n, key) {
  let low = 0, high = list.length;
  while (low < high) {
    const middle = (low + high) >> 1;
    if (key(list[middle]) <= n) low = middle + 1; else high = middle;
  }
  return low - 1;
}

// a fact at a tick: the last change up to it
function fact(kind, at) {
  const list = run.changes[kind] || [];
  const place = lastUpTo(list, at, (change) => change[0]);
  return place < 0 ? null : list[place][1];
}

const named = (name) => titles.get(name) && titles.get(name) !== name ? `${name} ${titles.get(name)}` : name;
const atLine = (line) => line ? `, line ${line}` : "";

// ---- the source and the trace, made once

function makeSource() {
  run.source.forEach((text, at) => {
    const row = made("li");
    const words = made("span", text || " ");
    words.style.setProperty("--in", `${Math.min(text.search(/\S|$/) + 2, 14)}ch`);
    words.append(made("span", "", "tag"));
    row.append(made("span", at + 1, "number"), words);
    row.addEventListener("click", () => goToLineOfSource(at + 1));
    by("source").append(row);
  });
}

function makeTrace() {
  const sign = { a: "--", g: ">>", s: ".." };
  run.trace.forEach((text, at) => {
    const row = made("div");
    row.id = `line-${at}`;
    row.setAttribute("role", "option");
    const words = made("span", text);
    if (run.lines[at]) words.append(made("span", `${sign[run.how[at]] || ""} ${run.lines[at]}`, "tag"));
    row.append(made("span", at + 1, "number"), words);
    row.addEventListener("click", () => show(ticks[at], at));
    by("trace").append(row);
  });
}

const tagOf = (row) => row.querySelector(".tag");

// a line of the source: the next line of the trace that comes from it, or the first one
function goToLineOfSource(line) {
  const all = run.lines.map((it, at) => it === line ? at : -1).filter((at) => at >= 0);
  if (all.length) {
    const at = all.find((it) => it > chosen) ?? all[0];
    show(ticks[at], at);
  }
}

// ---- what is shown at a tick

// scrolls to a row, and so that the other one is seen too where both fit
function intoView(box, row, other) {
  if (!row) return;
  const last = (it) => it.offsetTop + it.offsetHeight;
  let top = row.offsetTop, bottom = last(row);
  if (other && Math.max(bottom, last(other)) - Math.min(top, other.offsetTop) <= box.clientHeight)
    [top, bottom] = [Math.min(top, other.offsetTop), Math.max(bottom, last(other))];
  if (top < box.scrollTop || bottom > box.scrollTop + box.clientHeight) box.scrollTop = top - (box.clientHeight - (bottom - top)) / 3;
}

function paragraphs(id, texts) {
  const box = by(id);
  box.replaceChildren(...(texts.length ? texts : ["none"]).map((text) => made("p", text)));
}

function queueWords(queues, before) {
  return queues.map(([entry, callers]) => `${before}${entry}: ${callers.map(named).join(", ")} waits`.replace(/, (.*) waits$/, ", $1 wait"));
}

function showState() {
  const running = fact("run", tick), line = fact("at", tick);
  const ready = fact("ready", tick) || [];
  const level = ready.length && ready[0][0] === running ? ` at level ${ready[0][1]}` : "";
  const ended = tick >= run.end && run.why;
  const runs = ended ? `the run has ended: ${run.why}` : running ? `${named(running)}${level}${atLine(line)}` : "nobody";
  paragraphs("runs", [runs]);
  paragraphs("ready", ready.map(([name, at, deadline, where]) =>
    `${named(name)}: level ${at}${deadline === null ? "" : `, deadline ${deadline}`}${name === running && !ended ? ", runs" : ""}${name === running ? "" : atLine(where)}`));
  const waits = Object.keys(run.changes).filter((kind) => kind.startsWith("waits ")).map((kind) => [kind.slice(6), fact(kind, tick)]);
  paragraphs("waiting", waits.filter(([, it]) => it).map(([name, [why, where]]) => `${named(name)} waits for ${why}${atLine(where)}`));
  const objects = [];
  for (const [name, ceiling, inside, queues] of fact("objects", tick) || []) {
    const holds = inside.length ? inside.map(([who, mode]) => `${named(who)} is inside, and ${mode}s`).join("; ") : "nobody is inside";
    objects.push(`${named(name)}: ceiling ${ceiling}; ${holds}`, ...queueWords(queues, `${name}.`));
  }
  paragraphs("objects", objects);
  paragraphs("calls", (fact("calls", tick) || []).flatMap(([name, queues]) => queueWords(queues, `${name}.`)));
  paragraphs("releases", fact("releases", tick) || []);
  const said = ticks.filter((it) => it === tick).length;
  const lines = said === 1 ? "1 line" : said ? `${said} lines` : "no line";
  const what = ended ? runs : running ? `${named(running)} runs${level}${atLine(line)}` : "nobody runs";
  by("now").textContent = `Tick ${tick} (${lines}): ${what}.`;
  return ended ? 0 : line;
}

// the line that runs, those that acted, and the one from which the chosen line of the trace comes; `picked` says that it was chosen
function showSource(line, picked) {
  const rows = by("source").children;
  for (const row of by("source").querySelectorAll(".here, .said, .stands")) {
    row.className = "";
    tagOf(row).textContent = "";
  }
  // the lines of the source that said something at this tick, then the one that runs
  const said = new Map();
  run.lines.forEach((it, at) => { if (ticks[at] === tick && it && run.how[at] === "a") said.set(it, said.get(it) || run.trace[at].split(" ")[1]); });
  for (const it of said.keys()) {
    rows[it - 1].className = "said";
    tagOf(rows[it - 1]).textContent = "<- acted";
  }
  if (line) {
    rows[line - 1].className = said.has(line) ? "said here" : "here";
    tagOf(rows[line - 1]).textContent = `<- ${fact("run", tick)} runs${said.has(line) ? ", acted" : ""}`;
  }
  const of = ticks[chosen] === tick ? run.lines[chosen] : 0;
  if (of && !rows[of - 1].className) {
    rows[of - 1].className = "stands";
    const who = run.trace[chosen].split(" ")[1];
    tagOf(rows[of - 1]).textContent = titles.has(who) ? `<- ${who} ${run.how[chosen] === "g" ? "goes on" : "stands"}` : "<- from here";
  }
  const [first, second] = picked ? [of, line] : [line, of];
  intoView(by("source"), rows[(first || second) - 1], rows[second - 1]);
}

function showTrace() {
  const rows = by("trace").children;
  for (const row of by("trace").querySelectorAll(".said, [aria-selected=true]")) {
    row.classList.remove("said");
    row.setAttribute("aria-selected", "false");
  }
  ticks.forEach((it, at) => { if (it === tick) rows[at].classList.add("said"); });
  rows[chosen].setAttribute("aria-selected", "true");
  by("trace").setAttribute("aria-activedescendant", `line-${chosen}`);
  intoView(by("trace"), rows[chosen], ticks[chosen] === tick ? rows[ticks.lastIndexOf(tick)] : null);
}

// shows a tick; the chosen line is this one, or the last one up to the tick
function show(at, line) {
  tick = Math.max(0, Math.min(run.end, Math.round(at) || 0));
  chosen = line ?? Math.max(0, ticks.includes(tick) ? ticks.indexOf(tick) : lastUpTo(ticks, tick, (it) => it));
  by("tick").value = by("slider").value = tick;
  const running = showState();
  if (tick < from || tick > to) look(tick - (to - from) / 2, to - from);
  draw();
  laneIntoView();
  // the panes scroll when all else has its height
  showTrace();
  showSource(running, line !== undefined);
  history.replaceState(null, "", `#tick=${tick}`);
}

function step(by_one, forward) {
  if (by_one) return show(tick + (forward ? 1 : -1));
  const place = lastUpTo(moments, forward ? tick : tick - 1, (it) => it) + (forward ? 1 : 0);
  show(moments[Math.max(0, Math.min(moments.length - 1, place))]);
}

function stepLine(forward) {
  const at = Math.max(0, Math.min(ticks.length - 1, chosen + (forward ? 1 : -1)));
  show(ticks[at], at);
}

// ---- the picture

const SPACE = "http://www.w3.org/2000/svg";

function shape(kind, attributes, says) {
  const it = document.createElementNS(SPACE, kind);
  for (const [name, value] of Object.entries(attributes)) it.setAttribute(name, typeof value === "number" ? Math.round(value * 10) / 10 : value);
  if (says) {
    const tip = document.createElementNS(SPACE, "title");
    tip.textContent = says;
    it.append(tip);
  }
  return it;
}

function words(x, y, text, colour, size, more) {
  const it = shape("text", { x, y, fill: colour, "font-size": size, ...more });
  it.textContent = text;
  return it;
}

// the part of the picture that begins here and has so many ticks
function look(first, span) {
  span = Math.max(10, Math.min(Math.max(run.end, 1), span));
  from = Math.max(0, Math.min(Math.max(run.end, 1) - span, first));
  to = from + span;
}

function zoom(factor) {
  const span = (to - from) * factor;
  look(tick - span * ((tick - from) / (to - from) || 0), span);
  draw();
}

function nice(least) {
  let step = 1;
  while (step < least) step = String(step)[0] === "2" ? step * 5 / 2 : step * 2;
  return step;
}

const LOOKS = { run: "var(--run)", raised: "var(--raised)", ready: "url(#hatch)", block: "var(--block)", made: "var(--made)" };
const SAYS = { run: "runs", ready: "is ready", block: "is blocked", made: "is made, not yet activated" };
const COLOURS = { release: "var(--ink)", deadline: "var(--fault)", miss: "var(--fault)", end: "var(--ink)", put: "var(--put)", call: "var(--call)", cancel: "var(--call)", trigger: "var(--call)", setting: "var(--soft)", object: "var(--leaving)", fault: "var(--fault)", harm: "var(--fault)", script: "var(--fault)" };

const DOTS = new Set(["put", "call", "setting", "object", "harm"]);

// a line with an edge in the colour of the paper, which is seen in a bar too
function edged(d, stroke, says) {
  const it = shape("g", {}, says);
  it.append(shape("path", { d, ...stroke, stroke: "var(--paper)", "stroke-width": 4.1, class: "edge" }), shape("path", { d, ...stroke }));
  return it;
}

function sign(kind, x, top, says) {
  const bottom = top + 14, middle = top + 7, colour = COLOURS[kind] || "var(--soft)";
  const stroke = { stroke: colour, "stroke-width": 1.7, fill: "none", "stroke-linecap": "round" };
  if (kind === "release") return edged(`M${x} ${bottom + 3}V${top - 4}M${x - 3.5} ${top + 1}L${x} ${top - 4.5}L${x + 3.5} ${top + 1}`, stroke, says);
  if (kind === "deadline") return edged(`M${x} ${top - 4}V${bottom + 3}M${x - 3.5} ${bottom - 1}L${x} ${bottom + 4}L${x + 3.5} ${bottom - 1}`, stroke, says);
  if (kind === "miss" || kind === "fault" || kind === "cancel") return edged(`M${x - 4} ${middle - 4}L${x + 4} ${middle + 4}M${x + 4} ${middle - 4}L${x - 4} ${middle + 4}`, stroke, says);
  if (kind === "trigger" || kind === "script") return edged(`M${x + 3} ${top}L${x - 3} ${middle + 1}H${x + 3}L${x - 3} ${bottom}`, stroke, says);
  if (kind === "end") return shape("rect", { x: x - 1.5, y: top - 2, width: 3, height: 18, fill: colour }, says);
  return shape("circle", { cx: x, cy: top - 1, r: 2.6, fill: colour, stroke: "var(--paper)", "stroke-width": 0.6 }, says);
}

// a call that begins or ends, from one lane to another: dotted where another task runs the entry body
function call(kind, x, start, end, says) {
  const tip = end < start ? 4 : -4;
  return shape("path", { d: `M${x} ${start}V${end}M${x - 3} ${end + tip}L${x} ${end}L${x + 3} ${end + tip}`, stroke: "var(--call)", "stroke-width": 1.3, fill: "none", ...(kind === "meeting" ? {} : { "stroke-dasharray": "1.5 2.5" }) }, says);
}

function hatch() {
  const pattern = shape("pattern", { id: "hatch", width: 6, height: 6, patternUnits: "userSpaceOnUse", patternTransform: "rotate(45)" });
  pattern.append(shape("rect", { width: 6, height: 6, fill: "var(--ready)", "fill-opacity": 0.45 }), shape("rect", { width: 2.5, height: 6, fill: "var(--ready)" }));
  return pattern;
}

// the name of a lane: where it has no room its last part, or the end of that
function nameOf(lane, most) {
  if (lane.words === lane.name) return lane.name === "agent" ? "handlers" : "";
  const last = lane.words.slice(lane.words.lastIndexOf(".") + 1);
  return [lane.words, last].find((it) => it.length <= most) ?? `..${last.slice(2 - most)}`;
}

let geometry = { left: 0, scale: 1 };

function draw() {
  const width = by("drawing").clientWidth || 900;
  const narrow = width < 600, left = narrow ? 74 : 170, right = 22;
  const scale = (width - left - right) / (to - from);
  geometry = { left, scale };
  const place = (at) => left + (Math.min(Math.max(at, from), to) - from) * scale;
  const meets = (first, end) => first < to && end > from;
  const height = 26 + run.lanes.length * laneHeight + 6;
  // the ticks stay in view where the lanes scroll
  const axis = shape("svg", { class: "axis", viewBox: `0 0 ${width} ${axisHeight}`, height: axisHeight, "aria-hidden": true });
  const svg = shape("svg", { viewBox: `0 ${axisHeight} ${width} ${height - axisHeight}`, height: height - axisHeight, role: "img", "aria-label": `The picture, ticks ${Math.round(from)} to ${Math.round(to)}` });
  const texts = [];
  const inBar = (x, y, text, colour) => texts.push(words(x, y, text, colour, 10.5, { "font-weight": "bold", "pointer-events": "none" }));
  svg.append(hatch());
  const gap = nice(64 / scale);
  for (let at = Math.ceil(from / gap) * gap; at <= to; at += gap) {
    svg.append(shape("line", { x1: place(at), x2: place(at), y1: 18, y2: height, stroke: "var(--edge)" }));
    axis.append(words(place(at), 13, at, "var(--soft)", 11, { "text-anchor": "middle" }));
  }
  // the tick that is shown: behind the bars as wide as it is, and before them a line
  svg.append(shape("rect", { x: place(tick), y: 16, width: Math.max(scale, 1.5), height: height - 16, fill: "var(--here-edge)", "fill-opacity": 0.35 }));
  const tops = {};
  run.lanes.forEach((lane, number) => {
    const top = tops[lane.name] = 30 + number * laneHeight;
    const signed = new Set(lane.marks.filter(([, kind]) => !DOTS.has(kind)).map(([at]) => at));
    svg.append(words(2, top + 6, lane.name, "var(--ink)", 12, { "font-weight": "bold" }));
    svg.append(words(narrow ? 26 : 44, top + 6, lane.note.replace("base ", narrow ? "b " : "base ").replace("ceiling ", narrow ? "c " : "ceiling "), "var(--soft)", 10));
    svg.append(words(2, top + 17, nameOf(lane, narrow ? 11 : 24), "var(--ink)", narrow ? 9.5 : 10.5));
    for (const [first, end, state, level, raised, detail] of lane.bars) if (meets(first, end)) {
      const x = place(first), wide = Math.max(place(end) - x, 0.7), kind = state === "run" && raised ? "raised" : state;
      const says = `${lane.name} ${SAYS[state]}${level && state !== "block" && state !== "made" ? ` at level ${level}` : ""}${detail ? `: ${detail}` : ""}, ${first} to ${end}`;
      const [y, tall] = { run: [top, 14], raised: [top - 4, 18], ready: [top + 4, 10], block: [top + 11, 2], made: [top + 11, 2] }[kind];
      if (kind === "made") svg.append(shape("path", { d: `M${x} ${y + 1}h${wide}`, stroke: LOOKS.made, "stroke-width": 2, "stroke-dasharray": "3 3" }, says));
      else svg.append(shape("rect", { x, y, width: wide, height: tall, fill: LOOKS[kind] }, says));
      // the level stands beside a sign at the beginning of its bar
      const beside = first >= from && signed.has(first) ? 7 : 3;
      if (state === "run" && wide > 7 * level.length + beside) inBar(x + beside, top + 11, level, kind === "raised" ? "var(--paper)" : "var(--on-run)");
      if (state === "block" && detail && wide > 6 * detail.length + 8) texts.push(words(x + 4, top + 8, detail, "var(--soft)", 10, { "pointer-events": "none" }));
    }
    for (const [first, end] of lane.late) if (meets(first, end))
      svg.append(shape("rect", { x: place(first), y: top + 15, width: place(end) - place(first), height: 4, fill: "var(--fault)" }, `${lane.name} is late, ${first} to ${end}`));
    for (const [first, end, says] of lane.left) if (meets(first, Math.max(end, first + 1)))
      svg.append(shape("rect", { x: place(first), y: top + 19, width: Math.max(place(end) - place(first), 2), height: 2, fill: "var(--leaving)" }, `${says}, ${first} to ${end}`));
  });
  for (const [first, end, who, object, mode] of run.actions) if (meets(first, end)) {
    const x = place(first), wide = Math.max(place(end) - x, 0.7), says = `${who} in ${object} (${mode}), ${first} to ${end}`;
    if (who in tops) svg.append(shape("rect", { x, y: tops[who] - 2, width: wide, height: 4, fill: "var(--object)" }, says));
    svg.append(shape("rect", { x, y: tops[object] + 1, width: wide, height: 13, fill: "var(--object)", "fill-opacity": mode === "read" ? 0.5 : 1 }, says));
    if (wide > 7 * who.length + 4) inBar(x + 3, tops[object] + 11, who, "var(--paper)");
  }
  for (const [at, kind, first, second, says] of run.links) if (at >= from && at <= to)
    svg.append(call(kind, Math.round(place(at) * 10) / 10, tops[first] + 7, tops[second] + 7, `${at}: ${says}`));
  for (const lane of run.lanes) {
    // where signs stand close, a release is a short line, and of equal signs in one pixel one is drawn
    const marks = lane.marks.filter(([at]) => at >= from && at <= to), dense = marks.length * 16 > width, seen = new Set(), signs = [];
    for (const [at, kind, says] of marks) {
      const x = Math.round(place(at) * 10) / 10, pixel = `${kind}${Math.round(x)}`, top = tops[lane.name];
      if (seen.has(pixel)) continue;
      seen.add(pixel);
      if (dense && kind === "release") svg.append(shape("rect", { x: x - 0.4, y: top - 4, width: 0.8, height: 17, fill: "var(--ink)" }, `${at}: ${says}`));
      else signs.push(sign(kind, x, top, `${at}: ${says}`));
    }
    // the edge of a sign covers no other sign
    svg.append(...signs.map((it) => it.querySelector(".edge")).filter((edge) => edge), ...signs);
  }
  const x = place(tick);
  svg.append(shape("rect", { x: x - 0.5, y: 16, width: 1, height: height - 16, fill: "var(--here-edge)" }));
  axis.append(shape("path", { d: `M${x - 5} 15h10l-5 6z`, fill: "var(--here-edge)" }));
  // words come last, so that nothing covers them
  svg.append(...texts);
  const scrolled = by("drawing").scrollTop;
  by("drawing").replaceChildren(axis, svg);
  by("drawing").scrollTop = scrolled;
}

// scrolls to the lane of the one that runs
function laneIntoView() {
  const box = by("drawing"), running = fact("run", tick);
  const top = run.lanes.findIndex((lane) => lane.name === running) * laneHeight;
  const isSeen = top >= box.scrollTop && top + laneHeight + axisHeight <= box.scrollTop + box.clientHeight;
  if (running && !isSeen) box.scrollTop = top - (box.clientHeight - axisHeight - laneHeight) / 3;
}

function key(what, text) {
  const item = made("li"), svg = shape("svg", { viewBox: "-4 -4 36 22", "aria-hidden": "true" });
  svg.append(what);
  item.append(svg, text);
  by("legend").append(item);
}

function makeLegend() {
  const states = new Set(run.lanes.flatMap((lane) => lane.bars.map((bar) => bar[2] === "run" && bar[4] ? "raised" : bar[2])));
  const kinds = new Set(run.lanes.flatMap((lane) => lane.marks.map((mark) => mark[1])));
  const bar = (fill, y, height) => shape("rect", { x: 0, y, width: 28, height, fill });
  if (states.has("run")) key(bar("var(--run)", 1, 14), "runs; the number is its active priority");
  if (states.has("raised")) key(bar("var(--raised)", 0, 16), "runs above its base priority");
  if (states.has("ready")) key(bar("url(#hatch)", 4, 10), "ready");
  if (states.has("block")) key(bar("var(--block)", 8, 2), "blocked, and what for");
  if (states.has("made")) key(shape("path", { d: "M0 9h28", stroke: "var(--made)", "stroke-width": 2, "stroke-dasharray": "3 3" }), "made, not yet activated");
  if (run.actions.length) key(bar("var(--object)", 4, 5), "protected action");
  for (const [kind, says] of [["meeting", "a rendezvous begins, ends"], ["entry body", "another task runs the entry body"]])
    if (run.links.some((link) => link[1] === kind)) key(call(kind, 14, 0, 15), says);
  if (run.lanes.some((lane) => lane.left.length)) key(bar("var(--leaving)", 7, 2), "a scope is being left");
  if (run.lanes.some((lane) => lane.late.length)) key(bar("var(--fault)", 6, 4), "late: behind its deadline");
  for (const [kind, says] of Object.entries(run.signs)) if (kinds.has(kind)) key(sign(kind, 14, DOTS.has(kind) ? 9 : 1), says);
}

// ---- keys and clicks

function clicked(event) {
  const x = event.clientX - by("drawing").getBoundingClientRect().left;
  if (x >= geometry.left) show(Math.floor(from + (x - geometry.left) / geometry.scale + 0.01));
}

function pressed(event) {
  if (event.ctrlKey || event.altKey || event.metaKey || event.target === by("tick")) return;
  const keys = {
    ArrowRight: () => step(event.shiftKey, true), ArrowLeft: () => step(event.shiftKey, false),
    ArrowDown: () => stepLine(true), ArrowUp: () => stepLine(false),
    Home: () => show(0), End: () => show(run.end),
    "+": () => zoom(0.5), "=": () => zoom(0.5), "-": () => zoom(2), "0": all,
  };
  // in the source, as a click on the line of the chosen line of the trace
  if (event.target === by("source")) keys.Enter = () => goToLineOfSource(run.lines[chosen]);
  if (!(event.key in keys)) return;
  event.preventDefault();
  keys[event.key]();
}

function all() {
  look(0, run.end);
  draw();
}

// a long run opens closer, at about two ticks a pixel
function begin() {
  byFragment();
  look(tick - innerWidth, 2 * innerWidth);
  draw();
}

function byFragment() {
  const asked = /tick=(\d+)/.exec(location.hash);
  show(asked ? Number(asked[1]) : 0);
}

by("title").textContent = run.title;
by("about").textContent = `${run.name}, ticks 0 to ${run.end}, ends: ${run.why}`;
by("tick").max = by("slider").max = run.end;
if (run.script.length) {
  paragraphs("script", run.script);
  by("script-head").hidden = by("script").hidden = false;
}
makeSource();
makeTrace();
makeLegend();
for (const [id, act] of [["first", () => show(0)], ["last", () => show(run.end)], ["back", () => step(false, false)], ["on", () => step(false, true)], ["in", () => zoom(0.5)], ["out", () => zoom(2)], ["all", all]]) by(id).addEventListener("click", act);
by("slider").addEventListener("input", () => show(Number(by("slider").value)));
by("tick").addEventListener("change", () => show(Number(by("tick").value)));
by("drawing").addEventListener("click", clicked);
document.addEventListener("keydown", pressed);
window.addEventListener("resize", draw);
window.addEventListener("hashchange", byFragment);
begin();

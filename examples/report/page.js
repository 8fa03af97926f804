"use strict";
const DAY = 86400, ZERO = Date.UTC(1980, 0, 6);
const $ = (id) => document.getElementById(id);
const two = (n) => String(n).padStart(2, "0");
const data = JSON.parse($("data").textContent);
const state = { sat: "", day: -1, hour: -1, utc: false, filter: "" };
const pct = (part, whole) => (Math.floor(part * 10000 / whole) / 100).toFixed(2);

// texts of a time in seconds of GPS time, in the time scale that is chosen
function shift(m) {
  if (!state.utc) return m;
  let n = 0;
  for (const at of data.leaps) if (m >= at) n++;
  return m - n;
}
const date = (m) => new Date(ZERO + shift(m) * 1000).toISOString();
const full = (m) => date(m).slice(0, 10) + " " + date(m).slice(11, 19);
const clock = (m) => date(m).slice(11, 19);
const dayOf = (m) => String(new Date(ZERO + m * 1000).getUTCDate());
const dayText = (m) => new Date(ZERO + m * 1000).toISOString().slice(0, 10);
function doy(m) {
  const d = new Date(ZERO + m * 1000);
  return String((Date.UTC(d.getUTCFullYear(), d.getUTCMonth(), d.getUTCDate()) -
    Date.UTC(d.getUTCFullYear(), 0, 1)) / 86400000 + 1).padStart(3, "0");
}
function length(s) {
  const d = Math.floor(s / DAY), h = Math.floor(s % DAY / 3600), m = Math.floor(s % 3600 / 60);
  return (d ? d + " d " : "") + (h || d ? h + " h " : "") + two(m) + " min" + (s % 60 ? " " + s % 60 + " s" : "");
}

// elements
function make(name, some, ...inside) {
  const it = document.createElement(name);
  for (const [key, value] of Object.entries(some || {})) it.setAttribute(key, value);
  it.append(...inside);
  return it;
}
function draw(name, some, text) {
  const it = document.createElementNS("http://www.w3.org/2000/svg", name);
  for (const [key, value] of Object.entries(some)) it.setAttribute(key, value);
  if (text !== undefined) it.textContent = text;
  return it;
}
function time(m, form) {
  return make("time", { "data-m": m, "data-form": form || "full" }, (form === "clock" ? clock : full)(m));
}
function table(heads, rows, caption) {
  if (!rows.length) return make("p", { class: "soft" }, "None.");
  const cell = (it) => make("td", typeof it === "number" ? { class: "n" } : {}, it instanceof Node ? it : String(it));
  return make("div", { class: "wide tall", tabindex: "0", role: "region", "aria-label": caption },
    make("table", {},
      make("thead", {}, make("tr", {}, ...heads.map((it) => make("th", { scope: "col" }, it)))),
      make("tbody", {}, ...rows.map((row) => make("tr", {}, ...row.map(cell))))));
}

function scale(utc) {
  state.utc = utc;
  for (const it of document.querySelectorAll("time[data-m]"))
    it.textContent = (it.dataset.form === "clock" ? clock : full)(Number(it.dataset.m));
  for (const it of document.querySelectorAll(".scale")) it.textContent = utc ? "UTC" : "GPS time";
  for (const it of document.querySelectorAll("button[data-utc]"))
    it.setAttribute("aria-pressed", String((it.dataset.utc === "1") === utc));
  try { localStorage.setItem("navreport.utc", utc ? "1" : "0"); } catch { /* not allowed from a file */ }
}
// a satellite fits where its name begins with one of the words, as "G05 E1"; "5" is G05 and E05
function fits(name, words) {
  const list = words.toUpperCase().split(/[\s,;]+/).filter(Boolean);
  return !list.length || list.some((it) => name.startsWith(it) || /^\d+$/.test(it) && Number(name.slice(1)) === Number(it));
}

// --- the month

const start = data.from, end = data.to, days = Math.round((end - start) / DAY);
const sats = data.sats || [];
const named = new Map(sats.map((it) => [it.n, it]));
for (const it of sats) {
  let at = start;
  it.ranges = [];
  for (let i = 0; i < it.r.length; i += 2) { // how long after the range before, and how long
    const from = at + it.r[i];
    at = from + it.r[i + 1];
    it.ranges.push([from, at]);
  }
  at = start;
  it.eph = [];
  for (let i = 0; i < it.e.length; i += 3) {
    at += it.e[i];
    it.eph.push([at, it.e[i + 1], it.e[i + 2]]);
  }
}
const shown = () => sats.filter((it) => fits(it.n, state.filter));
function view() {
  if (state.hour >= 0) return [start + state.day * DAY + state.hour * 3600, 3600];
  if (state.day >= 0) return [start + state.day * DAY, DAY];
  return [start, end - start];
}
function holes(it, from, to) {
  const found = [];
  let at = from;
  for (const [a, b] of it.ranges) {
    if (b <= from || a >= to) continue;
    if (a > at) found.push([at, a]);
    at = Math.max(at, b);
  }
  if (at < to) found.push([at, to]);
  return found;
}
function overlap(ranges, from, to) {
  let sum = 0;
  for (const [a, b] of ranges) sum += Math.max(0, Math.min(b, to) - Math.max(a, from));
  return sum;
}

const HEAD = 30, ROW = 18, LEFT = 38;
function chart() {
  const svg = $("chart"), rows = shown(), [from, size] = view(), width = Math.max(280, svg.parentNode.clientWidth);
  const x = (m) => LEFT + Math.min(1, Math.max(0, (m - from) / size)) * (width - LEFT - 4), height = HEAD + rows.length * ROW + 4;
  svg.setAttribute("viewBox", `0 0 ${width} ${height}`);
  svg.setAttribute("height", height);
  svg.replaceChildren(...$("patterns").content.cloneNode(true).children);
  // ticks: days, hours or five minutes, with as many labels as there is room for
  const step = size > DAY ? DAY : size > 3600 ? 3600 : 300, count = Math.round(size / step);
  const every = [1, 2, 3, 5, 6, 10].find((n) => (width - LEFT) / count * n >= (size > 3600 ? 24 : 38)) || 15;
  for (let i = 0; i <= count; i++) {
    const m = from + i * step, at = x(m);
    svg.append(draw("line", { class: "tick", x1: at, x2: at, y1: HEAD - 4, y2: height }));
    if (i === count && size > DAY || i % every) continue;
    const label = size > DAY ? dayOf(m) : size > 3600 ? two(i) : new Date(ZERO + m * 1000).toISOString().slice(11, 16);
    const where = size > DAY ? (at + x(m + step)) / 2 : at;
    const anchor = i === count ? "end" : "middle";
    svg.append(draw("text", { x: where, y: 11, "text-anchor": anchor }, label));
    if (size > DAY) svg.append(draw("text", { x: where, y: 23, "text-anchor": "middle", class: "small" }, doy(m)));
  }
  svg.append(draw("text", { x: 0, y: 11, class: "small" }, size > DAY ? "day" : size > 3600 ? "hour" : "GPS"));
  if (size > DAY) svg.append(draw("text", { x: 0, y: 23, class: "small" }, "DOY"));
  rows.forEach((it, i) => {
    const y = HEAD + i * ROW, g = draw("g", { class: "row", "data-sat": it.n });
    g.append(draw("title", {}, `${it.n}: ${pct(overlap(it.ranges, from, from + size), size)} % covered`));
    g.append(draw("rect", { class: "back", x: 0, y, width, height: ROW - 2, rx: 2 }));
    g.append(draw("text", { class: "name", x: 4, y: y + 12 }, it.n));
    for (const [ranges, some, least] of [[it.ranges, { class: "cover" }, 0.5], [it.u, { class: "ill", fill: "url(#p-ill)" }, 3],
      [it.g, { class: "gap", fill: "url(#p-gap)" }, 3]])
      for (const [a, b] of ranges)
        if (b > from && a < from + size)
          g.append(draw("rect", { ...some, x: x(a), y: y + 2, width: Math.max(least, x(b) - x(a)), height: ROW - 6 }));
    if (size <= DAY) {
      let free = LEFT;
      for (const [toe, issue] of it.eph) {
        if (toe < from || toe > from + size) continue;
        const at = x(toe);
        g.append(draw("line", { class: "eph", x1: at, x2: at, y1: y + 2, y2: y + ROW - 4 }));
        if (at >= free && at + 24 < width) {
          g.append(draw("text", { class: "issue", x: at + 3, y: y + 12 }, issue));
          free = at + 26;
        }
      }
    }
    for (const c of data.contradictions)
      if (c.satellite === it.n && c.toe >= from && c.toe <= from + size) {
        const at = x(c.toe);
        g.append(draw("path", { class: "mark", d: `M${at} ${y + 1}l5 9h-10z` }));
      }
    svg.append(g);
  });
  const at = rows.findIndex((it) => it.n === state.sat);
  if (at >= 0) {
    const inside = state.day >= 0 && size > DAY;
    const a = inside ? x(start + state.day * DAY) : 0, b = inside ? x(start + (state.day + 1) * DAY) : width;
    const box = { x: Math.max(1, a), y: HEAD + at * ROW, width: Math.max(4, b - a - 2), height: ROW - 2 };
    svg.append(draw("rect", { class: "chosen", ...box }));
  }
  if (!rows.length) svg.append(draw("text", { x: LEFT, y: HEAD + 12 }, "No satellite fits."));
}

function detail() {
  const box = $("detail"), it = named.get(state.sat);
  box.replaceChildren();
  if (!it) {
    box.append(make("h2", {}, "Satellite"), make("p", {}, "Choose a satellite: in the timeline, by the lists above it, or in the table."));
    $("status").textContent = "";
    return;
  }
  const whole = state.day < 0, from = whole ? start : start + state.day * DAY, to = whole ? end : from + DAY;
  const day = whole ? data.name : `${dayText(from)} (day ${doy(from)})`;
  const part = whole ? it.p.reduce((a, b) => a + b, 0) : it.p[state.day], none = holes(it, from, to);
  const eph = it.eph.filter((e) => e[0] >= from && e[0] < to), long = none.filter(([a, b]) => b - a >= 7200).length;
  const ill = overlap(it.u, from, to);
  const other = data.contradictions.filter((c) => c.satellite === it.n && c.toe >= from && c.toe < to);
  box.append(make("h2", { id: "detail-name" }, `${it.n} ${whole ? "in" : "on"} ${day}`),
    make("dl", { class: "facts" },
      make("dt", {}, "Covered"), make("dd", { id: "detail-percent" }, `${pct(part, to - from)} %`),
      make("dt", {}, "Seconds"), make("dd", { id: "detail-seconds" }, String(part)),
      make("dt", {}, "Only unhealthy"), make("dd", { id: "detail-unhealthy" }, ill ? length(ill) : "none"),
      make("dt", {}, "Ephemerides"), make("dd", { id: "detail-ephemerides" }, String(eph.length)),
      make("dt", {}, "Contradictions"), make("dd", { id: "detail-contradictions" }, String(other.length))));
  const pair = make("div", { class: "pair" });
  pair.append(make("div", { id: "detail-none" }, make("h3", {}, "Times without an ephemeris"),
    table(["from", "to", "length"], none.map(([a, b]) => [time(a), time(b), length(b - a)]), `Times without an ephemeris of ${it.n}`)));
  pair.append(make("div", { id: "detail-eph" }, make("h3", {}, "Ephemerides"),
    table(["Toe", it.n[0] === "G" ? "IODE" : "IODnav", "health"],
      eph.slice(0, 600).map(([toe, issue, health]) => [time(toe), issue, data.health[it.n[0] + health]]),
      `Ephemerides of ${it.n}`)));
  if (eph.length > 600) pair.lastChild.append(make("p", { class: "soft" }, `The first 600 of ${eph.length}.`));
  box.append(pair);
  $("status").textContent = `${it.n}, ${day}: ${pct(part, to - from)} % covered, ${long} gap${long === 1 ? "" : "s"} of two ` +
    `hours and more, ${eph.length} ephemerides`;
}

function matrix() {
  const box = $("matrix"), rows = shown();
  const head = make("tr", {}, make("th", { scope: "col" }, "Satellite"), make("th", { scope: "col" }, "all"));
  for (let d = 0; d < days; d++) {
    const m = start + d * DAY, label = make("button", { "data-day": d, title: dayText(m) }, dayOf(m));
    head.append(make("th", { scope: "col" }, label, make("br"), make("span", { class: "soft" }, doy(m))));
  }
  const body = make("tbody");
  // a row: how many seconds of each day are covered, of how many satellites
  const line = (name, seconds, count, some) => {
    const row = make("tr", {}, make("th", { scope: "row" }, some ? make("button", some, name) : name),
      make("td", {}, pct(seconds.reduce((a, b) => a + b, 0), (end - start) * count)));
    seconds.forEach((s, d) => {
      const kind = !s ? "zero" : s < DAY * count ? "low" : "", here = some && name === state.sat && d === state.day ? " here" : "";
      const text = s === DAY * count ? "100" : s ? pct(s, DAY * count) : "0";
      row.append(make("td", { class: kind + here, "data-day": d, ...some }, text));
    });
    body.append(row);
  };
  for (const [letter, name] of [["G", "GPS"], ["E", "Galileo"]]) {
    const all = sats.filter((it) => it.n[0] === letter);
    if (all.length) line(name, all[0].p.map((_, d) => all.reduce((sum, it) => sum + it.p[d], 0)), all.length);
  }
  for (const it of rows) line(it.n, it.p, 1, { "data-sat": it.n });
  box.replaceChildren(make("thead", {}, head), body);
}

function go(some, keep) {
  Object.assign(state, some);
  if (state.day < 0) state.hour = -1;
  $("sat").value = state.sat;
  $("day").value = String(state.day);
  $("hour").value = String(state.hour);
  for (const it of document.querySelectorAll("button[data-zoom]"))
    it.setAttribute("aria-pressed", String(it.dataset.zoom === zoomed()));
  chart();
  detail();
  matrix();
  if (!keep) {
    const day = state.day >= 0 && "d=" + dayText(start + state.day * DAY);
    const words = [state.sat && "s=" + state.sat, day, state.hour >= 0 && "h=" + state.hour];
    try { history.replaceState(null, "", "#" + words.filter(Boolean).join("&")); } catch { /* not allowed from a file */ }
  }
}
const zoomed = () => state.hour >= 0 ? "hour" : state.day >= 0 ? "day" : "month";
function move(by) { // to the next or previous day or hour
  if (state.hour >= 0) {
    const at = Math.min(days * 24 - 1, Math.max(0, state.day * 24 + state.hour + by));
    go({ day: Math.floor(at / 24), hour: at % 24 });
  } else go({ day: Math.min(days - 1, Math.max(0, state.day + by)) });
}
function nextSat(by) {
  const rows = shown(), at = rows.findIndex((it) => it.n === state.sat);
  if (rows.length) go({ sat: rows[Math.min(rows.length - 1, Math.max(0, at + by))].n });
}
function zoom(to) {
  if (to === "month") go({ day: -1, hour: -1 });
  if (to === "day") go({ day: Math.max(0, state.day), hour: -1 });
  if (to === "hour") go({ day: Math.max(0, state.day), hour: Math.max(0, state.hour) });
}
function fromHash() {
  const said = Object.fromEntries(location.hash.slice(1).split("&").map((it) => it.split("=")));
  const day = said.d ? Math.round((Date.parse(said.d + "T00:00:00Z") - ZERO) / 1000 - start) / DAY : -1;
  go({ sat: named.has(said.s) ? said.s : "", day: day >= 0 && day < days ? day : -1, hour: said.h ? Number(said.h) % 24 : -1 }, true);
}

function month() {
  for (const it of sats) $("sat").append(make("option", { value: it.n }, it.n));
  for (let m = start, d = 0; d < days; d++, m += DAY) $("day").append(make("option", { value: d }, `${dayText(m)} (${doy(m)})`));
  for (let h = 0; h < 24; h++) $("hour").append(make("option", { value: h }, `${two(h)}:00`));
  $("sat").onchange = () => go({ sat: $("sat").value });
  $("day").onchange = () => go({ day: Number($("day").value) });
  $("hour").onchange = () => go({ day: Math.max(0, state.day), hour: Number($("hour").value) });
  $("find").oninput = () => {
    const rows = (state.filter = $("find").value, shown());
    go(rows.length === 1 ? { sat: rows[0].n } : {});
  };
  $("before").onclick = () => move(-1);
  $("after").onclick = () => move(1);
  for (const it of document.querySelectorAll("button[data-zoom]")) it.onclick = () => zoom(it.dataset.zoom);
  $("matrix").onclick = (event) => {
    const at = event.target.closest("[data-sat],[data-day]");
    if (at) go({ sat: at.dataset.sat || state.sat, day: at.dataset.day ? Number(at.dataset.day) : state.day, hour: -1 });
  };
  $("chart").onclick = (event) => {
    const row = event.target.closest("[data-sat]"), box = $("chart").getBoundingClientRect(), [from, size] = view();
    const part = (event.clientX - box.left - LEFT) / (box.width - LEFT - 4), m = from + Math.min(0.999999, part) * size;
    if (part < 0) return row && go({ sat: row.dataset.sat });
    const sat = row ? row.dataset.sat : state.sat;
    if (size > DAY) go({ sat, day: Math.floor((m - start) / DAY), hour: -1 });
    else if (size > 3600) go({ sat, hour: Math.floor((m - from) / 3600) });
    else go({ sat });
  };
  $("chart").onkeydown = (event) => {
    const done = { ArrowLeft: () => move(-1), ArrowRight: () => move(1), ArrowUp: () => nextSat(-1), ArrowDown: () => nextSat(1),
      Enter: () => zoom(zoomed() === "month" ? "day" : "hour"), "+": () => zoom(zoomed() === "month" ? "day" : "hour"),
      Escape: () => zoom(zoomed() === "hour" ? "day" : "month"), "-": () => zoom(zoomed() === "hour" ? "day" : "month"),
      Home: () => go({ day: 0 }), End: () => go({ day: days - 1 }) }[event.key];
    if (done && !event.ctrlKey && !event.altKey && !event.metaKey) { event.preventDefault(); done(); }
  };
  window.onresize = chart;
  window.onhashchange = () => {
    fromHash();
    $("status").scrollIntoView({ block: "center" });
  };
  fromHash();
}

// --- every page

for (const it of document.querySelectorAll("button[data-utc]")) it.onclick = () => {
  scale(it.dataset.utc === "1");
  if (data.sats) detail();
};
if ($("find") && !data.sats) $("find").oninput = () => {
  let left = 0;
  for (const it of document.querySelectorAll("tr[data-sat]")) left += !(it.hidden = !fits(it.dataset.sat, $("find").value));
  $("found").textContent = `${left} satellites`;
};
for (const it of document.querySelectorAll("input[data-rows]")) it.oninput = () => {
  const text = it.value.toLowerCase();
  for (const row of $(it.dataset.rows).tBodies[0].rows) row.hidden = !row.textContent.toLowerCase().includes(text);
};
for (const it of document.querySelectorAll("svg.strip[data-days]")) it.onclick = (event) => {
  const box = it.getBoundingClientRect(), day = Math.floor((event.clientX - box.left) / box.width * Number(it.dataset.days));
  const at = dayText(data.from + Math.max(0, day) * DAY);
  const sat = it.dataset.sat ? `s=${it.dataset.sat}&` : "";
  if (data.months.includes(at.slice(0, 7))) location.href = `${at.slice(0, 7)}.html#${sat}d=${at}`;
};
if (data.sats) month();
let kept = false;
try { kept = localStorage.getItem("navreport.utc") === "1"; } catch { /* not allowed from a file */ }
if (kept) { scale(true); if (data.sats) detail(); }
document.documentElement.dataset.ready = "1";

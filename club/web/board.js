// Draws the standard map, units, centres and orders in one SVG.

import { MAP } from "./map.js";
import { provinceOf, unitWords, nameOf } from "./papers.js";

const SVG = "http://www.w3.org/2000/svg";
const SHORT = { austria: "Au", england: "En", france: "Fr", germany: "Ge", italy: "It",
  russia: "Ru",
  turkey: "Tu" };
export const shortOf = (power) => SHORT[power] || power.slice(0, 2);

export function el(name, attributes = {}, parent = null, text = "") {
  const e = document.createElementNS(SVG, name);
  for (const k in attributes) e.setAttribute(k, attributes[k]);
  if (text) e.textContent = text;
  if (parent) parent.append(e);
  return e;
}

// --- the ground: areas and lines, drawn once

const lines = MAP.arcs.map(([, , c]) => c.filter((_, i) => i % 2 === 0).map((x, i) =>
  [x, c[2 * i + 1]]));

function outline(rings) {
  return rings.map((ring) => "M" + ring.flatMap((n) =>
    (n > 0 ? lines[n - 1] : [...lines[-n - 1]].reverse())).map((p) => p.join(" ")).join("L")
      + "Z").join("");
}

// A pattern for each power, so that colours need not be told apart.
const PATTERNS = { austria: "M0 14L14 0", england: "M0 5H14", france: "M5 0V14",
  germany: "M0 0L14 14M14 0L0 14", italy: "M3 3h2v2h-2zM10 10h2v2h-2z", russia: "M7 3V11M3 7H11",
  turkey: "M0 0L14 14" };

function patterns(svg) {
  const defs = el("defs", {}, svg);
  for (const power in PATTERNS) {
    const p = el("pattern", { id: "hatch-" + power, width: 14, height: 14,
      patternUnits: "userSpaceOnUse" }, defs);
    el("path", { d: PATTERNS[power], class: "hatch" }, p);
  }
  const p = el("pattern", { id: "hatch-blocked", width: 10, height: 10,
    patternUnits: "userSpaceOnUse" }, defs);
  el("path", { d: "M0 10L10 0", class: "hatch strong" }, p);
}

export function swatch(power) {
  const s = el("svg", { viewBox: "0 0 28 28", class: "swatch", "aria-hidden": "true" });
  el("rect", { width: 28, height: 28, class: "area owner-" + power }, s);
  if (PATTERNS[power]) el("rect", { width: 28, height: 28, fill: `url(#hatch-${power})` }, s);
  return s;
}

const layers = {};
const areas = {};
const owners = {};
const isSea = (n) => MAP.provinces[n]?.kind === "sea";

export function drawGround(svg) {
  patterns(svg);
  for (const name of ["seas", "glow", "areas", "owned", "reach", "borders", "labels", "orders",
    "units", "marks"]) {
    layers[name] = el("g", { class: "layer-" + name }, svg);
  }
  for (const n in MAP.blocked) {
    const d = outline(MAP.blocked[n]);
    el("path", { d, class: "area blocked" }, layers.areas);
    el("path", { d, fill: "url(#hatch-blocked)", class: "passive" }, layers.areas);
  }
  for (const n in MAP.provinces) {
    const p = MAP.provinces[n];
    const d = outline(p.rings);
    areas[n] = el("path", { d, class: `area ${p.kind}`, "data-province": n },
      isSea(n) ? layers.seas : layers.areas);
    el("title", {}, areas[n], p.name + (p.centre ? ", a supply centre" : ""));
    owners[n] = el("path", { d, class: "passive", fill: "none" }, layers.owned);
  }
  MAP.arcs.forEach(([a, b], i) => {
    if (!a || !b) return;
    const kind = isSea(a) && isSea(b) ? "at-sea" : isSea(a) || isSea(b) ? "coast" : "on-land";
    const d = "M" + lines[i].map((p) => p.join(" ")).join("L");
    el("path", { d, class: "line " + kind }, layers.borders);
    // Shallow water along the coast: the land covers the other half of the line.
    if (kind === "coast") el("path", { d, class: "line shallow passive" }, layers.glow);
  });
}

// --- what changes from paper to paper

let k = 1;     // how large units and letters are drawn: more than 1 where the map is small
export const setScale = (value) => { k = value; };

export const isKnown = (board) => board.every((b) => MAP.powers[b.power]
  && b.own.every((n) => MAP.provinces[n]) && b.units.every((u) => MAP.provinces[provinceOf(u.at)]));

function spotOf(place) {
  const [n, coast] = place.split("/");
  const p = MAP.provinces[n];
  return p && (coast && p.coasts?.[coast] ? p.coasts[coast].at : p.at);
}
const beside = ([x, y]) => [x + 29 * k, y + 19 * k];

const STAR = "M" + Array.from({ length: 10 }, (_, i) => [i % 2 ? 4.4 : 10.5, i * Math.PI / 5])
  .map(([r, a]) => `${(r * Math.sin(a)).toFixed(1)} ${(-r * Math.cos(a)).toFixed(1)}`)
  .join("L") + "Z";

function drawCentres(board, changes) {
  const owner = {};
  for (const b of board) for (const n of b.own) owner[n] = b.power;
  for (const n in MAP.provinces) {
    const p = MAP.provinces[n];
    areas[n].setAttribute("class", `area ${p.kind} ${owner[n] ? "owner-" + owner[n] : ""}`);
    owners[n].setAttribute("fill", owner[n] ? `url(#hatch-${owner[n]})` : "none");
    const [x, y] = [p.at[0] + (p.label[0] - p.at[0]) * k, p.at[1] + (p.label[1] - p.at[1]) * k];
    const g = el("g", { class: "label " + p.kind }, layers.labels);
    const t = el("text", { x: x + (p.centre ? 10 * k : 0), y: y + 7 * k, "font-size": 20 * k }, g,
      p.kind === "sea" ? n : n.toUpperCase());
    t.setAttribute("stroke-width", 4 * k);
    for (const c in p.coasts) {
      el("text", { x: p.coasts[c].at[0], y: p.coasts[c].at[1] + 31 * k, "font-size": 16 * k,
        class: "coast-name", "stroke-width": 3 * k }, g, c);
    }
    if (!p.centre) continue;
    const c = el("g", { class: "centre", transform: `translate(${x - 26 * k} ${y}) scale(${k})`,
      "data-centre": n, "data-owner": owner[n] || "nobody" }, g);
    if (changes.some((q) => q.centre === n)) el("circle", { r: 14, class: "changed" }, c);
    el("path", { d: STAR, class: "star " + (owner[n] ? "fill-" + owner[n] : "free") }, c);
  }
}

export function unitMark(layer, u, [x, y], extra = "") {
  const g = el("g", { class: `unit ${u.kind === "A" ? "army" : "fleet"} fill-${u.power} ${extra}`,
    transform: `translate(${x} ${y}) scale(${k})`, "data-unit": u.at, "data-power": u.power,
    "data-province": provinceOf(u.at) }, layer);
  el("title", {}, g, `${nameOf(u.power)}: ${u.kind === "A" ? "army" : "fleet"} in `
    + `${MAP.provinces[provinceOf(u.at)]?.name || u.at}${u.out ? ", dislodged" : ""}`);
  if (u.kind === "A") el("circle", { r: 16, class: "body" }, g);
  else {
    el("path", { d: "M-2 -9V-22L13 -9Z", class: "body sail" }, g);
    el("path", { d: "M-23 -9H23L15 12H-15Z", class: "body" }, g);
  }
  el("text", { y: u.kind === "A" ? 6 : 7, "font-size": 17 }, g, shortOf(u.power));
  return g;
}

function burst([x, y], layer) {
  let d = "";
  for (let i = 0; i < 24; i++) {
    const [r, a] = [i % 2 ? 22 : 30, i * Math.PI / 12];
    d += `${i ? "L" : "M"}${(Math.cos(a) * r).toFixed(1)} ${(Math.sin(a) * r).toFixed(1)}`;
  }
  el("path", { d: d + "Z", class: "burst", transform: `translate(${x} ${y}) scale(${k})` }, layer);
}

const BADGES = {
  bounced: "M-5 -5L5 5M5 -5L-5 5",
  cut: "M-6 4L-1 -6M1 6L6 -4",
  void: "M-5 0A5 5 0 1 0 5 0A5 5 0 1 0 -5 0",
  "no route": "M-3 -3A3.5 3.5 0 1 1 1 1L0 2M0 5.5V6",
  built: "M-6 0H6M0 -6V6",
  gone: "M-6 -6L6 6M6 -6L-6 6",
  disorder: "M0 -6V1.5M0 5V6",
};
function badge(what, [x, y], layer) {
  const g = el("g", { class: `badge badge-${what.replace(" ", "-")}`, "data-badge": what,
    transform: `translate(${x} ${y}) scale(${k})` }, layer);
  el("circle", { r: 10 }, g);
  el("path", { d: BADGES[what] }, g);
}

// A bent line from a to b, so that two that go opposite ways lie beside each other.
function curve(a, b, gapA, gapB, bend = 0.1) {
  const [dx, dy] = [b[0] - a[0], b[1] - a[1]];
  const c = [(a[0] + b[0]) / 2 - dy * bend, (a[1] + b[1]) / 2 + dx * bend];
  const towards = (from, to, gap) => {
    const d = Math.hypot(to[0] - from[0], to[1] - from[1]) || 1;
    const g = Math.min(gap, d * 0.6);
    return [from[0] + (to[0] - from[0]) * g / d, from[1] + (to[1] - from[1]) * g / d];
  };
  const [p, q] = [towards(a, c, gapA), towards(b, c, gapB)];
  const angle = Math.atan2(q[1] - c[1], q[0] - c[0]) * 180 / Math.PI;
  const at = (t) => [0, 1].map((i) => (1 - t) ** 2 * p[i] + 2 * t * (1 - t) * c[i] + t * t * q[i]);
  const f = (v) => v.map((z) => z.toFixed(1)).join(" ");
  return { d: `M${f(p)}Q${f(c)} ${f(q)}`, angle, at, tip: f(q) };
}

function shaft(g, path, width) {
  el("path", { d: path.d, class: "halo", "stroke-width": (width + 4) * k }, g);
  el("path", { d: path.d, class: "shaft", "stroke-width": width * k }, g);
}
function head(g, path, form) {
  const d = { arrow: "M3 0L-14 9L-10 0L-14 -9Z", open: "M-13 9L0 0L-13 -9", bar: "M0 -12V12",
    dot: "M-5 0A5 5 0 1 0 5 0A5 5 0 1 0 -5 0" }[form];
  el("path", { d, class: "head " + form,
    transform: `translate(${path.tip}) rotate(${path.angle.toFixed(1)}) scale(${k})` }, g);
}

const FAILED = ["bounced", "no route", "cut", "void"];
const isGone = (o) => ["disbands", "removed", "removed in disorder"].includes(o.outcome);

function arrowOf(o, stands) {
  const from = spotOf(o.at);
  const to = spotOf(o.to);
  return from && to && curve(o.does === "retreat" ? beside(from) : from, to, 20 * k,
    (stands.has(provinceOf(o.to)) ? (o.outcome === "bounced" ? 30 : 23) : 4) * k);
}

function drawOrder(o, orders, stands) {
  const from = spotOf(o.at);
  if (!from) return;
  const failed = FAILED.includes(o.outcome) || (o.does === "retreat" && o.outcome === "disbands");
  const came = (o.outcome || "draft").replace(/ /g, "-");
  const g = el("g", { class: `order ${o.does} ${failed ? "failed" : "done"} ${came}`,
    "data-order": o.text, "data-outcome": o.outcome || "draft",
    "data-fate": o.fate || "" }, layers.orders);
  if (o.does === "move" || o.does === "retreat") {
    const path = arrowOf(o, stands);
    if (!path) return;
    shaft(g, path, o.does === "move" ? 5 : 4);
    head(g, path, failed ? "bar" : o.does === "move" ? "arrow" : "open");
    if (FAILED.includes(o.outcome)) badge(o.outcome, path.at(0.72), layers.marks);
  } else if (o.does === "support" || o.does === "convoy") {
    const mover = o.to && orders.find((q) => q.does === "move" && provinceOf(q.at) === o.other
      && provinceOf(q.to) === o.to);
    const [a, b] = [spotOf(o.other), o.to && spotOf(o.to)];
    if (!a) return;
    const aim = mover ? arrowOf(mover, stands)?.at(o.does === "support" ? 0.62 : 0.45)
      : b ? [(a[0] + b[0]) / 2, (a[1] + b[1]) / 2] : a;
    if (!aim) return;
    const path = curve(from, aim, 20 * k, o.to ? 2 : 22 * k, 0);
    shaft(g, path, o.does === "support" ? 3.5 : 5);
    head(g, path, "dot");
    if (failed) badge(o.outcome, path.at(0.5), layers.marks);
  }
  const place = o.does === "retreat" || o.does === "disband" ? beside(from) : from;
  if (o.does === "hold") el("circle", { cx: from[0], cy: from[1], r: 23 * k, class: "ring" }, g);
  if (o.does === "build") {
    unitMark(layers.units, o, from, "ghost");
    badge("built", [from[0] + 20 * k, from[1] - 16 * k], layers.marks);
  }
  if (isGone(o) || ((o.does === "remove" || o.does === "disband") && !o.outcome)) {
    badge(o.outcome === "removed in disorder" ? "disorder" : "gone",
      [place[0] + 18 * k, place[1] - 16 * k], layers.marks);
    el("path", { d: "M-19 -19L19 19M19 -19L-19 19", class: "crossed",
      transform: `translate(${place[0]} ${place[1]}) scale(${k})` }, layers.marks);
  }
  if (o.fate) burst(from, layers.orders);
  if (o.fate === "destroyed") badge("gone", [from[0] + 20 * k, from[1] - 18 * k], layers.marks);
}

// Draws a board with orders on it; `reach` names provinces to be lit, `picked` the unit chosen.
export function drawBoard(board, { orders = [], changes = [], reach = [], picked = "" } = {}) {
  for (const n of ["labels", "orders", "units", "marks", "reach"]) layers[n].replaceChildren();
  drawCentres(board, changes);
  for (const n of reach) {
    el("path", { d: outline(MAP.provinces[n].rings), class: "reachable passive" }, layers.reach);
  }
  const all = board.flatMap((b) => b.units);
  const stands = new Set(all.filter((u) => !u.out).map((u) => provinceOf(u.at)));
  for (const u of all.filter((v) => !v.out)) unitMark(layers.units, u, spotOf(u.at));
  for (const u of all.filter((v) => v.out)) unitMark(layers.units, u, beside(spotOf(u.at)), "out");
  const moves = orders.filter((o) => o.does === "move");
  const rest = orders.filter((o) => o.does !== "move");
  for (const o of [...moves, ...rest]) drawOrder(o, orders, stands);
  if (picked) {
    const fit = all.filter((v) => unitWords(v) === picked);
    const u = fit.find((v) => v.out) || fit[0];
    if (u) {
      const [x, y] = u.out ? beside(spotOf(u.at)) : spotOf(u.at);
      el("circle", { cx: x, cy: y, r: 26 * k, class: "picked" }, layers.marks);
    }
  }
}

// --- the legend: the same shapes, small

export function sample(what) {
  const s = el("svg", { viewBox: "0 0 120 48", class: "sample", "aria-hidden": "true" });
  const [hold, marks, kept] = [layers.orders, layers.marks, k];
  const g = el("g", {}, s);
  k = 1;
  layers.orders = g;
  layers.marks = el("g", {}, s);
  const path = curve([8, 24], [108, 24], 0, 0, 0);
  const line = (cls, width, form, mark) => {
    g.setAttribute("class", "order " + cls);
    shaft(g, path, width);
    head(g, path, form);
    if (mark) badge(mark, path.at(0.5), layers.marks);
  };
  const draw = {
    army: () => unitMark(g, { kind: "A", at: "par", power: "france" }, [60, 24]),
    fleet: () => unitMark(g, { kind: "F", at: "par", power: "france" }, [60, 28]),
    moves: () => line("move done", 5, "arrow"),
    bounced: () => line("move failed bounced", 5, "bar", "bounced"),
    "no route": () => line("move failed no-route", 5, "bar", "no route"),
    given: () => line("support done", 3.5, "dot"),
    cut: () => line("support failed", 3.5, "dot", "cut"),
    void: () => line("support failed void", 3.5, "dot", "void"),
    convoys: () => line("convoy done", 5, "dot"),
    draft: () => line("move done draft", 5, "arrow"),
    retreats: () => line("retreat done", 4, "open"),
    dislodged: () => burst([60, 24], g),
    destroyed: () => { burst([50, 24], g); badge("gone", [78, 14], layers.marks); },
    built: () => badge("built", [60, 24], layers.marks),
    removed: () => badge("gone", [60, 24], layers.marks),
    disorder: () => badge("disorder", [60, 24], layers.marks),
    holds: () => {
      g.setAttribute("class", "order hold");
      el("circle", { cx: 60, cy: 24, r: 20, class: "ring" }, g);
    },
    centre: () => el("path", { d: STAR, class: "star fill-france",
      transform: "translate(60 24) scale(1.6)" }, g),
    changed: () => {
      const c = el("g", { class: "centre", transform: "translate(60 24) scale(1.4)" }, g);
      el("circle", { r: 14, class: "changed" }, c);
      el("path", { d: STAR, class: "star free" }, c);
    },
    blocked: () => {
      const area = { x: 30, y: 6, width: 60, height: 36 };
      el("rect", { ...area, class: "area blocked" }, g);
      el("rect", { ...area, fill: "url(#hatch-blocked)" }, g);
    },
  };
  draw[what]();
  [layers.orders, layers.marks, k] = [hold, marks, kept];
  return s;
}

// Tells in words and tables what the map shows, and what the judge replies.

import { MAP } from "./map.js";
import * as read from "./papers.js";
import * as draw from "./board.js";

const $ = (id) => document.getElementById(id);

export function make(name, text = "", parent = null, cls = "") {
  const e = document.createElement(name);
  e.textContent = text;
  if (cls) e.className = cls;
  if (parent) parent.append(e);
  return e;
}
const capital = (text) => text.replace(/^./, (c) => c.toUpperCase());

// --- a paper

const OUTCOME = { "no route": "no route: its convoy had no path", given: "support given",
  cut: "support cut", void: "void: the other unit did something else",
  "removed in disorder": "removed in disorder: no order was given" };

// The orders of a power in a paper, with what became of them, and what else it did or got.
function tellPower(p, power, grid, known) {
  const its = (list) => list.filter((x) => x.power === power);
  const centre = (c) => (known && MAP.provinces[c] ? MAP.provinces[c].name : c);
  const more = [...its(p.waived).map((w) => `waives ${w.count} build${w.count > 1 ? "s" : ""}`),
    ...its(p.changes).map((c) => `takes ${centre(c.centre)}`)];
  if (!its(p.orders).length && !more.length) return;
  const box = make("div", "", grid);
  make("h3", read.nameOf(power), box).prepend(draw.swatch(power));
  const list = make("ul", "", box);
  for (const o of its(p.orders)) {
    const marks = `came-${o.outcome.replace(/ /g, "-")} ${o.fate ? "fate-" + o.fate : ""}`;
    const li = make("li", "", list, marks.trim());
    make("code", o.text, li);
    make("span", ` ${OUTCOME[o.outcome] || o.outcome}${o.fate ? ", " + o.fate : ""}`, li);
  }
  for (const text of more) make("li", text, list, "change");
}

export function tellPaper(p, known) {
  const body = $("told-body");
  body.replaceChildren();
  $("told").hidden = !p;
  if (!p) return;
  $("told-title").textContent = capital(read.titleWords(p.title));
  for (const line of p.notice) make("p", line, body, "quote");
  const status = p.game.match(/^GAME \S+ \S+ (.*) DUE /)?.[1] || "running";
  if (status !== "running") make("p", `The game: ${read.statusWords(status)}.`, body);
  const grid = make("div", "", body, "orders");
  for (const b of p.board) tellPower(p, b.power, grid, known);
  for (const line of p.rest) make("p", line, body);
}

// --- tables

function heads(table, names) {
  table.replaceChildren();
  const row = make("tr", "", make("thead", "", table));
  for (const name of names) make("th", name, row).scope = "col";
  return make("tbody", "", table);
}
function rowOf(body, power) {
  const row = make("tr", "", body);
  const head = make("th", ` ${read.nameOf(power)} `, row);
  head.scope = "row";
  head.prepend(draw.swatch(power));
  return [row, head];
}

export function tellPowers(board, known) {
  const body = heads($("powers"), ["Power", "Centres", "Units", "Where"]);
  for (const b of board) {
    const [row, head] = rowOf(body, b.power);
    if (known) make("small", draw.shortOf(b.power), head);
    make("td", b.centres, row).dataset.of = "centres";
    make("td", b.count, row).dataset.of = "units";
    const units = b.units.map((u) => read.unitWords(u) + (u.out ? " (dislodged)" : ""));
    const td = make("td", units.join(", ") || "no units", row);
    make("br", "", td);
    make("small", b.own.length ? "owns " + b.own.join(" ") : "owns nothing", td);
  }
}

export function tellYears(papers, board) {
  const years = read.centresByYear(papers);
  const most = Math.max(1, ...years.flatMap((y) => Object.values(y.counts)));
  const body = heads($("years"), ["Power", ...years.map((y) => y.year)]);
  for (const b of board) {
    const [row] = rowOf(body, b.power);
    for (const y of years) {
      const td = make("td", "", row);
      const bar = make("span", "", td, `bar area owner-${b.power}`);
      bar.style.height = `${(y.counts[b.power] || 0) / most * 1.5}em`;
      make("span", y.counts[b.power] || 0, td);
    }
  }
}

// --- a reply

const DONE = { withdrawn: "All your orders are taken back.",
  press: "Your text lies in its readers' inboxes." };

function refusal(l, list) {
  const li = make("li", "", list, "bad");
  if (l.order) make("code", l.order, li);
  make("span", `${l.order ? ": " : ""}${l.why}. `, li);
  make("small", `(${l.code})`, li);
}

// The lines of Show and Inbox that are told in other words: [form, words, mark].
const SAYS = [
  [/^ITEM (\d+) (?:white|grey) (?:from (\S+) )?to (.*)$/, (m) =>
    `${m[1]}. ${m[2] ? "From " + read.nameOf(m[2]) : "Unsigned"}, to ${readers(m[3])}`, "item"],
  [/^> ?(.*)$/, (m) => m[1], "quote"],
  [/^ORDER (.*)$/, (m) => "stands: " + m[1], "good"],
  [/^SENT (\d+) INBOX (\d+)$/, (m) => `Press you sent: ${m[1]}. Items in your inbox: ${m[2]}.`],
  [/^VOTE (.*)$/, (m) => "Your vote: " + m[1]],
  [/^INBOX (\d+)$/, (m) => `Your inbox has ${m[1]} items.`],
];
const readers = (to) => (["you", "all"].includes(to) ? to : read.namesOf(to.split(" ")));

function tellLine(l, list) {
  if (l.code) return refusal(l, list);
  if (l.ok) {
    return make("li", DONE[l.line] || l.line.replace(/^vote /, "Your vote is now "), list, "good");
  }
  for (const [form, words, mark] of SAYS) {
    const m = l.line.match(form);
    if (m) return make("li", words(m), list, mark);
  }
  // The board of Show is on the map already.
  const isBoard = l.line.startsWith("GAME ") || read.readBoardLine(l.line);
  return isBoard ? null : make("li", l.line, list);
}

// Shows a reply; answers the orders that stand, if it told them.
export function tellReply(said, lines, raw, sent) {
  $("answer").hidden = false;
  $("said").textContent = said;
  $("raw").textContent = raw;
  $("sent").textContent = sent;
  $("reply").replaceChildren();
  for (const l of lines) tellLine(l, $("reply"));
  const standing = lines.filter((l) => l.line.startsWith("ORDER ")).map((l) => l.line.slice(6));
  if (/^SENT /m.test(raw) && !standing.length) make("li", "No orders of yours stand.", $("reply"));
  return standing;
}

// --- the legend

const LEGEND = [["army", "army"], ["fleet", "fleet"],
  ["centre", "supply centre, in its owner's colour"],
  ["changed", "centre that changes hands"], ["blocked", "no unit comes here"],
  ["moves", "moves"], ["bounced", "bounced"], ["no route", "no route: no convoy path"],
  ["given", "supports"], ["cut", "support cut"], ["void", "void: didn't match"],
  ["convoys", "convoys"], ["holds", "holds"], ["dislodged", "dislodged"],
  ["destroyed", "dislodged and destroyed"], ["retreats", "retreats"],
  ["removed", "disbands or is removed"], ["disorder", "removed in disorder"], ["built", "built"],
  ["draft", "an order in your box"]];

export function tellSigns() {
  for (const [what, text] of LEGEND) {
    make("li", "", $("legend")).append(draw.sample(what), text);
  }
}

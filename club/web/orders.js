// Helps to write orders: five lists say what a unit does, and clicks on the map fill the lists.

import { MAP } from "./map.js";
import { plain } from "./letter.js";
import { orderText, readOrder, tidyOrder, provinceOf, unitWords, nameOf } from "./papers.js";

const $ = (id) => document.getElementById(id);
const place = (p) => MAP.provinces[provinceOf(p)];
const COAST = { nc: "north coast", sc: "south coast", ec: "east coast", wc: "west coast" };
const wordsOf = (p) => `${place(p).name}${p.includes("/") ? ", " + COAST[p.split("/")[1]] : ""}`;
const isCoastal = (p) => place(p).kind === "coast";

// Where a unit can go by itself, as the judge's map has it.
function reachOf(u) {
  const p = place(u.at);
  if (u.kind === "A") return p.army;
  const coast = u.at.split("/")[1];
  return coast ? p.coasts[coast].fleet : p.fleet;
}
function byConvoy(u) {
  if (u.kind !== "A" || !isCoastal(u.at)) return [];
  return Object.keys(MAP.provinces).filter((n) => isCoastal(n) && n !== u.at
    && !place(u.at).army.includes(n));
}

let view = { board: [], phase: "", power: "" };     // what is on the map now
const NONE = { unit: "", does: "", other: "" };
let pick = { ...NONE };                             // what was chosen so far
let changed = () => {};

export const picked = () => pick.unit;
const part = () => view.phase.slice(-1);
const standing = (v) => v.board.flatMap((b) => b.units.filter((u) => !u.out));
const mine = () => view.board.find((b) => b.power === view.power);
const unitNamed = (text, out) => view.board.flatMap((b) => b.units)
  .find((u) => unitWords(u) === text && (out === undefined || u.out === out));
const chosen = () => unitNamed(pick.unit, part() === "R" ? true : undefined);

function ownUnits() {
  return (mine()?.units || []).filter((u) => (part() === "R" ? u.out : !u.out));
}
function freeHomes() {
  const b = mine();
  const full = new Set(standing(view).map((u) => provinceOf(u.at)));
  return b ? MAP.powers[b.power].home.filter((n) => b.own.includes(n) && !full.has(n)) : [];
}
export function allowance(board, power) {
  const b = board.find((x) => x.power === power);
  return b ? b.centres - b.count : 0;
}

// --- the lists

function options(select, groups, kept) {
  select.replaceChildren();
  for (const [label, items] of groups) {
    const into = label ? select.appendChild(document.createElement("optgroup")) : select;
    if (label) into.label = label;
    for (const [value, text] of items) into.append(new Option(text, value));
  }
  if ([...select.options].some((o) => o.value === kept)) select.value = kept;
}

const isConvoyer = (u) => u?.kind === "F" && place(u.at).kind === "sea";

function doings() {
  const u = chosen();
  if (part() === "R") return [["retreat", "retreats to"], ["disband", "disbands"]];
  if (part() === "M") {
    return [["move", "moves to"], ["hold", "holds"], ["support", "supports"],
      ...(isConvoyer(u) ? [["convoy", "convoys"]] : [])];
  }
  if (u || !pick.unit) return [["remove", "is removed"]];
  const p = place(pick.unit);
  const fleets = p.coasts
    ? Object.keys(p.coasts).map((c) => ["build F/" + c, `builds a fleet, ${COAST[c]}`])
    : p.kind === "coast" ? [["build F", "builds a fleet"]] : [];
  return [["build A", "builds an army"], ...fleets];
}

// Where an order may lead, as groups of options.
function destinations(does, u, other) {
  const there = (list) => list.map((p) => [p, wordsOf(p)]);
  if (!u) return [];
  if (does === "move") {
    const far = byConvoy(u);
    return [["next to it", there(reachOf(u))], ...(far.length ? [["by convoy", there(far)]] : [])];
  }
  if (does === "retreat") {
    const full = new Set(standing(view).map((v) => provinceOf(v.at)));
    return [["next to it", there(reachOf(u).filter((p) => !full.has(provinceOf(p))))]];
  }
  if (!other) return [];
  const bare = (list) => [...new Set(list.map(provinceOf))].filter((p) => p !== provinceOf(u.at));
  if (does === "convoy") {
    return [["", there(bare([...byConvoy(other), ...reachOf(other).filter(isCoastal)]))]];
  }
  const near = new Set(reachOf(u).map(provinceOf));
  const home = provinceOf(other.at);
  const both = bare([...reachOf(other), ...byConvoy(other)])
    .filter((p) => near.has(p) && p !== home);
  return [["", [...(near.has(home) ? [["", "where it is"]] : []), ...there(both)]]];
}

function others() {
  const u = chosen();
  const fit = (v) => v !== u && (pick.does === "support" || (v.kind === "A" && isCoastal(v.at)));
  return standing(view).filter(fit)
    .map((v) => [unitWords(v), `${nameOf(v.power)}: ${unitWords(v)}, ${wordsOf(v.at)}`]);
}

export function fill() {
  const winter = part() === "A";
  const homes = winter && allowance(view.board, view.power) > 0 ? freeHomes() : [];
  const units = ownUnits().map((u) => [unitWords(u), `${unitWords(u)}, ${wordsOf(u.at)}`]);
  options($("b-unit"), [["", [["", view.power ? "choose" : "choose your power first"]]],
    ...(homes.length ? [["build in", homes.map((n) => [n, wordsOf(n)])]] : []),
    ...(units.length ? [[winter ? "remove" : "your units", units]] : [])], pick.unit);
  options($("b-does"), [["", doings()]], pick.does);
  pick.does = $("b-does").value;
  const pair = pick.does === "support" || pick.does === "convoy";
  $("b-other").hidden = $("b-other-label").hidden = !pair;
  if (pair) options($("b-other"), [["", [["", "choose"], ...others()]]], pick.other);
  const to = destinations(pick.does, chosen(), pair ? unitNamed(pick.other, false) : null);
  $("b-to").hidden = $("b-to-label").hidden = !to.length && !pair;
  options($("b-to"), to, $("b-to").value);
  showVia();
}

function showVia() {
  const u = chosen();
  const to = $("b-to").value;
  const may = pick.does === "move" && u?.kind === "A" && to && isCoastal(u.at) && isCoastal(to)
    && reachOf(u).includes(to);
  $("b-via-label").hidden = !may;
  if (!may) $("b-via").checked = false;
}

// The order that the lists say; nothing where they don't say one.
function lineOf() {
  const u = chosen();
  if (!u) {
    const [, kind, coast] = pick.does.match(/^build ([AF])(\/\w+)?/) || [];
    return pick.unit && kind ? `BUILD ${kind} ${pick.unit}${coast || ""}` : "";
  }
  const other = unitNamed(pick.other, false);
  const [to, led] = [$("b-to").value, $("b-to").options.length > 0];
  const needs = { move: to, retreat: to, support: other && led, convoy: other && to };
  if (pick.does in needs && !needs[pick.does]) return "";
  return orderText({ does: pick.does, kind: u.kind, at: provinceOf(u.at), to,
    via: $("b-via").checked, kind2: other?.kind, other: other && provinceOf(other.at) });
}

// --- the text box: a line for a province takes the place of the one before

const NAMES = Object.entries(MAP.provinces).map(([code, p]) => [code, p.name]);
export const tidied = (known) => plain($("orders").value).split("\n")
  .map((l) => tidyOrder(l, known ? NAMES : [])).join("\n");

export function draft() {
  return tidied(true).split("\n")
    .map((text) => ({ text: text.trim(), power: view.power, ...readOrder(text) }))
    .filter((o) => o.does);
}

function addLine(line) {
  const own = provinceOf(readOrder(line).at);
  const kept = tidied(true).split("\n")
    .filter((l) => l.trim() && provinceOf(readOrder(l)?.at || "") !== own);
  $("orders").value = [...kept, line].join("\n") + "\n";
  say(`Added: ${line}. Send it when all is written.`);
  pick = { ...NONE };
}

const START = { M: "Click a unit, then where it goes. Click it twice and it holds.",
  R: "Click a dislodged unit, then where it retreats to.",
  A: "Click a free home centre to build there, or a unit to remove it." };

// --- what the player is told next, with buttons under the map

const say = (text) => { $("hint").textContent = text; };

function quick(buttons) {
  $("quick").replaceChildren(...buttons.map(([text, act, on]) => {
    const b = document.createElement("button");
    b.type = "button";
    b.textContent = text;
    if (on !== undefined) b.setAttribute("aria-pressed", on);
    b.onclick = () => { act(); refresh(); };
    return b;
  }));
}

function hint() {
  if (!pick.unit) return quick([]);
  const u = chosen();
  const own = u && `${u.kind} ${provinceOf(u.at)}`;
  const cancel = ["Cancel", () => { pick = { ...NONE }; say(START[part()]); }];
  const add = (text, line) => [text, () => addLine(line)];
  if (!u) {
    say(`${wordsOf(pick.unit)}: what do you build?`);
    const build = ([does, text]) => [text, () => { pick.does = does; addLine(lineOf()); }];
    return quick([...doings().map(build), cancel]);
  }
  if (part() === "A") {
    say(`${own}: remove it?`);
    return quick([add("Remove", `REMOVE ${own}`), cancel]);
  }
  if (part() === "R") {
    say(`${own} is dislodged: click where it retreats to.`);
    return quick([add("Disband", `${own} D`), cancel]);
  }
  say({
    move: `${own}: click where it moves to.`,
    support: !pick.other ? `${own} supports: click the unit that it supports.`
      : `${own} supports ${pick.other}: click where that one goes, or click it again if it stays.`,
    convoy: !pick.other ? `${own} convoys: click the army.`
      : `${own} convoys ${pick.other}: click where the army goes.`,
  }[pick.does] || "");
  const set = (text, does) =>
    [text, () => { pick.does = does; pick.other = ""; }, pick.does === does];
  return quick([add("Hold", `${own} H`), set("Move", "move"), set("Support", "support"),
    ...(isConvoyer(u) ? [set("Convoy", "convoy")] : []), cancel]);
}

// Provinces that may be clicked next.
export function reach() {
  const u = chosen();
  if (!u || (pick.does === "support" && !pick.other)) return [];
  return destinations(pick.does, u, unitNamed(pick.other, false))
    .filter(([label]) => label !== "by convoy")
    .flatMap(([, list]) => list.map(([p]) => provinceOf(p || unitNamed(pick.other, false).at)));
}

export function refresh() {
  fill();
  hint();
  changed();
}

// A click says where the unit goes. The last word under the map is of that, not of a new start.
function goTo(u, n) {
  const near = reachOf(u).filter((p) => provinceOf(p) === n);
  const far = pick.does === "move" && byConvoy(u).includes(n);
  const start = `${u.kind} ${provinceOf(u.at)} ${pick.does === "retreat" ? "R" : "-"} `;
  if (near.length > 1) {
    say(`${start.slice(0, -3)}: which coast of ${place(n).name}?`);
    return quick(near.map((p) => [COAST[p.split("/")[1]], () => addLine(start + p)]));
  }
  if (!near.length && !far) {
    return say(`${start.slice(0, -3)} can't come to ${place(n).name} in one move.`);
  }
  const line = start + (near[0] || n);
  const walks = pick.does === "move" && !far && u.kind === "A" && isCoastal(u.at) && isCoastal(n);
  addLine(line);
  refresh();
  if (far) say(`Added: ${line}. It goes by convoy: fleets have to carry it.`);
  if (walks) quick([["Let it go by convoy (VIA)", () => addLine(line + " VIA")]]);
}

// A first click: on a unit of one's own, or in Winter on a free home centre.
function choose(n, here) {
  if (!view.power && here) $("power").value = view.power = here.power;
  const own = ownUnits().includes(here) ? here : ownUnits().find((v) => provinceOf(v.at) === n);
  const does = { M: "move", R: "retreat" }[part()] || "";
  if (own) pick = { ...NONE, unit: unitWords(own), does };
  else if (part() === "A" && freeHomes().includes(n)) pick = { ...NONE, unit: n };
  else if (!here) say(START[part()]);
  else say(`That unit is ${nameOf(here.power)}'s. You write for ${nameOf(view.power)}.`);
  refresh();
}

// A click after Support or Convoy: first on a unit, then on where it goes.
function pair(u, n, here) {
  const supports = pick.does === "support";
  const unit = here && !here.out ? here : standing(view).find((v) => provinceOf(v.at) === n);
  if (pick.other) {
    const other = unitNamed(pick.other, false);
    const stays = supports && n === provinceOf(other.at);
    addLine(orderText({ does: pick.does, kind: u.kind, at: provinceOf(u.at), kind2: other.kind,
      other: provinceOf(other.at), to: stays ? "" : n }));
  } else if (unit && unit !== u && (supports || unit.kind === "A")) pick.other = unitWords(unit);
  else return say(supports ? "Click a unit to support." : "Click an army on a coast.");
  return refresh();
}

// A click on a province of the map, perhaps on a unit in it.
export function clicked(n, at, owner) {
  const here = at && view.board.flatMap((b) => b.units)
    .find((v) => v.at === at && v.power === owner);
  const u = chosen();
  if (!u || part() === "A") {
    pick = { ...NONE };
    return choose(n, here);
  }
  if (pick.does === "support" || pick.does === "convoy") return pair(u, n, here);
  if (here === u && pick.does === "move") {
    addLine(`${u.kind} ${provinceOf(u.at)} H`);
    return refresh();
  }
  return goTo(u, n);
}

export function setView(next) {
  const another = next.power !== view.power || next.phase !== view.phase;
  if (another) pick = { ...NONE };
  const fresh = next.board !== view.board;
  view = next;
  if (another || fresh) fill();
  if (another) { say(START[part()] || ""); quick([]); }
}

export function begin(onChange) {
  changed = onChange;
  const on = (id, act) => { $(id).onchange = () => { act($(id).value); refresh(); }; };
  on("b-unit", (unit) => { pick = { ...NONE, unit }; });
  on("b-does", (does) => { pick = { ...pick, does, other: "" }; });
  on("b-other", (other) => { pick.other = other; });
  $("b-to").onchange = showVia;
  $("b-add").onclick = () => {
    const line = lineOf();
    if (line) addLine(line);
    else say("Choose a unit and what it does first.");
    const told = $("hint").textContent;
    refresh();
    say(told);
  };
  $("orders").oninput = () => changed();
}

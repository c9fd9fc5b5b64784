// The page: opens a game, goes through its papers, and sends letters.

import { MAP } from "./map.js";
import * as read from "./papers.js";
import * as draw from "./board.js";
import * as letter from "./letter.js";
import * as orders from "./orders.js";
import { make, tellPaper, tellPowers, tellReply, tellSigns, tellYears } from "./tell.js";
import { zoomable } from "./zoom.js";

const $ = (id) => document.getElementById(id);
let game = null;          // what the judge says of the game
let papers = [];          // its papers, as read; the first at 0
let shown = 0;            // the paper on the map; 0 is the board now
let board = [];           // the board now
let known = false;        // whether the map of the game is the one drawn here
let turn = 0;             // counts openings, so that a late answer of another game is dropped

// --- fetching

// A server that is busy or counts requests is asked again, some times.
async function fetched(path) {
  for (let i = 1; ; i++) {
    let answer;
    try {
      answer = await fetch(path, { cache: "no-cache", credentials: "omit",
        signal: AbortSignal.timeout(45000) });
    } catch { throw new Error("away"); }
    if (answer.ok) return answer;
    if (answer.status === 404) throw new Error("none");
    if (![429, 503].includes(answer.status) || i === 6) throw new Error("away");
    await new Promise((done) => { setTimeout(done, 500 * i); });
  }
}

function trouble(text) {
  $("trouble").hidden = !text;
  $("trouble").textContent = text;
}

async function open(name) {
  const mine = ++turn;
  if (!name) close();
  if (!/^[a-z][a-z0-9]{0,15}$/.test(name)) {
    if (name) trouble("A game's name is small letters and digits, a letter first, 16 at most.");
    return;
  }
  if (game?.game !== name) close();
  await look(mine, name);
}

function close() {
  [game, papers, shown] = [null, [], 0];
  $("play").hidden = $("answer").hidden = true;
  $("news").textContent = "";
  $("orders").value = $("press").value = "";
  for (const id of ["phase", "status", "due"]) $(id).textContent = "";
  document.title = $("title").textContent = "Diplomacy by mail";
  trouble("");
  forget();
}

// What is new since the last look. The orders in the box are for a phase, and go with it.
function news(next) {
  if (next.papers < papers.length) papers = [];     // the judge went back to a copy
  if (next.phase !== game.phase) {
    $("orders").value = "";
    $("news").textContent = `Played: ${read.phaseWords(game.phase)}. The box for orders is empty.`;
  } else if (next.papers > game.papers) $("news").textContent = "A new paper is out.";
}

async function look(mine = turn, name = game?.game) {
  if (!name) return;
  try {
    const next = await (await fetched("/games/" + name)).json().catch(() => ({}));
    if (mine !== turn) return;
    if (next.game !== name) throw new Error("away");
    const fresh = !game;
    if (!fresh) news(next);
    if (fresh || next.board.join() !== game.board.join()) {
      board = next.board.map(read.readBoardLine);
      if (board.includes(null)) throw new Error("away");
    }
    game = next;
    trouble("");
    if (fresh) begin();
    header();
    if (fresh || !shown) show(0);
    while (papers.length < game.papers) {
      const n = papers.length + 1;
      const text = await (await fetched(`/games/${name}/papers/${n}`)).text();
      if (mine !== turn) return;
      // else another look was faster
      if (papers.length === n - 1) papers.push(read.readPaper(text));
      steps();
    }
    if (!shown) show(0);
    tellYears(papers, board);
  } catch (e) {
    if (mine !== turn) return;
    if (e.message === "none" && !game) trouble(`There is no game ${name}. Look at its name again.`);
    else if (["none", "away"].includes(e.message)) {
      trouble("The judge doesn't answer. " + (game ? "What you see may be old. " : "")
        + "This page tries again every minute.");
    } else throw e;
  }
}

// --- a game is opened

function begin() {
  known = draw.isKnown(board);
  document.body.classList.toggle("text-only", !known);
  $("play").hidden = false;
  $("paper").closest("details").open = !known;
  $("power").replaceChildren(new Option("choose", ""),
    ...board.map((b) => new Option(read.nameOf(b.power), b.power)));
  form();
  if (known && $("map").clientWidth < 560) map.middle(650, 830, 800);
}

function header() {
  allowed();
  document.title = `Game ${game.game}: ${read.phaseWords(game.phase)}`;
  $("title").textContent = "Game " + game.game;
  $("phase").textContent = read.phaseWords(game.phase) + ".";
  const status = read.statusWords(game.status);
  $("status").textContent = status.replace(/^./, (c) => c.toUpperCase()) + ".";
  const past = read.isDate(game.due) && game.due * 60000 < Date.now();
  $("due").textContent = /^(running|paused)$/.test(game.status)
    ? `Deadline: ${read.tickWords(game.due)}${past ? ", which is past" : ""}.` : "";
}

// --- papers, back and forth

const isPhase = (p) => p.orders.length + p.waived.length > 0;

function steps() {
  $("first").disabled = $("back").disabled = shown === 1 || !papers.length;
  $("next").disabled = $("now").disabled = shown === 0;
  const p = papers[shown - 1];
  $("which").textContent = p ? `Paper ${shown} of ${game.papers}: ${read.titleWords(p.title)}`
    : `Now: ${read.phaseWords(game.phase)}`
      + (papers.length < game.papers ? ` (paper ${papers.length} of ${game.papers} read)` : "");
  $("after-label").hidden = !p || !isPhase(p) || !known;
}

function show(n) {
  shown = n > 0 && n <= papers.length ? n : 0;
  steps();
  drawMap();
  $("bar").hidden = shown > 0;
  const p = papers[shown - 1];
  tellPaper(p, known);
  tellPowers(p ? p.board : board, known);
  $("paper").textContent = p ? p.text : papers.at(-1)?.text || "";
}

function step(by) {
  const next = (shown || papers.length + 1) + by;
  show(next > papers.length ? 0 : Math.max(1, next));
}

function drawMap() {
  if (!known || !game) return;
  const p = papers[shown - 1];
  orders.setView({ board, phase: game.phase, power: $("power").value });
  if (!p) {
    draw.drawBoard(board, { orders: $("what").value === "ORDERS" ? orders.draft() : [],
      reach: orders.reach(), picked: orders.picked() });
  } else if (isPhase(p) && !$("after").checked && shown > 1) {
    draw.drawBoard(papers[shown - 2].board, { orders: p.orders, changes: p.changes });
  } else draw.drawBoard(p.board, { changes: p.changes });
}

// --- the form

const ABOUT = {
  SHOW: "Show tells your standing orders, your vote, and how many items your inbox has.",
  WITHDRAW: "All your orders of this phase are taken back.",
  "PRESS GREY": "The readers aren't told who wrote it.",
  "PRESS WHITE": "The readers are told that it is yours, and who else has it.",
  VOTE: "Your vote stands until you change it. Nobody is told of it.",
};

function form() {
  const what = $("what").value;
  const press = what.startsWith("PRESS");
  const vote = document.querySelector("[name=vote]:checked").value;
  $("for-ORDERS").hidden = what !== "ORDERS";
  $("for-PRESS").hidden = !press;
  $("for-VOTE").hidden = what !== "VOTE";
  $("for-INBOX").hidden = what !== "INBOX";
  $("for-powers").hidden = !(press || (what === "VOTE" && vote === "FOR"));
  $("powers-legend").textContent = press ? "Readers" : "Who shares the draw";
  const ticked = chosenPowers();
  $("boxes").replaceChildren();
  for (const p of [...board.map((b) => b.power), ...(press ? ["all"] : [])]) {
    if (press && p === $("power").value) continue;
    const label = make("label", "", $("boxes"));
    const box = make("input", "", label);
    Object.assign(box, { type: "checkbox", value: p, checked: ticked.includes(p) });
    label.append(p === "all" ? " all others" : " " + read.nameOf(p));
  }
  $("about").textContent = what === "PRESS GREY" && !game?.grey
    ? "This game takes no unsigned press." : ABOUT[what] || "";
  allowed();
  drawMap();
}

function allowed() {
  const power = $("power").value;
  const n = power ? orders.allowance(board, power) : 0;
  const may = n > 0 ? `may build ${n}` : n < 0 ? `has to remove ${-n}`
    : "has nothing to build or remove";
  const winter = game?.phase.endsWith("A");
  $("allowed").textContent = winter && power ? `${read.nameOf(power)} ${may}.` : "";
}

const chosenPowers = () => {
  const ticked = [...$("boxes").querySelectorAll(":checked")].map((b) => b.value);
  return ticked.includes("all") ? ["all"] : ticked;
};

function forget() { $("secret").value = ""; }

function headline(text, what, lines, bad) {
  if (text.startsWith("REPLY nobody")) return "The judge doesn't know whose letter this is.";
  if (!bad) {
    return { SHOW: "This is how you stand.", INBOX: "This is your inbox." }[what]
      || "The judge has taken it.";
  }
  if (what !== "ORDERS" || lines[0].code?.startsWith("L")) return "The judge refuses.";
  return bad === lines.length ? "No line was taken."
    : `Taken, but for ${bad} of ${lines.length} lines.`;
}

async function sendLetter() {
  // What is sent is what is seen.
  if ($("what").value === "ORDERS") $("orders").value = orders.tidied(known);
  const want = { what: $("what").value, orders: $("orders").value, press: $("press").value,
    powers: chosenPowers(), vote: document.querySelector("[name=vote]:checked").value,
    first: $("from-item").value.trim() };
  const [from, secret] = [$("power").value, $("secret").value];
  const command = letter.commandOf(want);
  const fault = !from ? "Choose your power first." : !/^[!-~]{8,64}$/.test(secret)
    ? "Type your secret: 8 to 64 signs, no space and no accent." : command.fault;
  $("use").hidden = $("more").hidden = true;
  if (fault) return tellReply(fault, [], "", "");
  $("send").disabled = true;
  tellReply("Sending ...", [], "", "");
  const say = (text) => { $("said").textContent = text; };
  const got = await letter.send({ game: game.game, from, secret, lines: command.lines }, say);
  $("send").disabled = false;
  if (got.fault) return tellReply(got.fault, [], got.text || "", got.sent || "");
  const lines = letter.explain(got.text, command.orders);
  const bad = lines.filter((l) => l.code).length;
  const standing = tellReply(headline(got.text, want.what, lines, bad), lines, got.text, got.sent);
  if (standing.length) offerStanding(standing);
  if (want.what === "INBOX") offerMore(got.text);
  // A text that was sent leaves its box, so that nobody sends it twice.
  if (want.what.startsWith("PRESS") && !bad) $("press").value = "";
  return look();
}

function offerStanding(standing) {
  $("use").hidden = false;
  $("use").onclick = () => {
    $("orders").value = standing.join("\n") + "\n";
    $("what").value = "ORDERS";
    form();
  };
}

function offerMore(raw) {
  const all = +(raw.match(/^INBOX (\d+)$/m) || [0, 0])[1];
  const last = Math.max(0, ...[...raw.matchAll(/^ITEM (\d+) /gm)].map((m) => +m[1]));
  $("more").hidden = !last || last >= all;
  $("more").onclick = () => {
    $("from-item").value = last + 1;
    $("letter").requestSubmit();
  };
}

// --- the start

async function offerGames() {
  try {
    const names = (await (await fetched("games.txt")).text()).split("\n").map((l) => l.trim())
      .filter((l) => /^[a-z][a-z0-9]{0,15}$/.test(l));
    $("games").replaceChildren(...names.map((n) => new Option(n, n)));
    for (const n of names) make("a", n, $("offered"), "game").href = "#" + n;
  } catch { /* A club need not list its games. */ }
}

draw.drawGround($("map"));
tellSigns();
let redraw = 0;
const map = zoomable($("map"), MAP.width, MAP.height, (scale) => {
  // Units and letters keep a size that can be read, up to what the provinces bear.
  draw.setScale(Math.max(0.7, Math.min(1.4, 0.58 / scale)));
  cancelAnimationFrame(redraw);
  redraw = requestAnimationFrame(drawMap);
});
orders.begin(() => { if (shown) show(0); else drawMap(); });

$("app").hidden = false;
$("choose").onsubmit = (e) => {
  e.preventDefault();
  const name = $("game").value.trim().toLowerCase();
  if (location.hash.slice(1) === name) open(name);
  else location.hash = name;
};
addEventListener("hashchange", fromHash);
function fromHash() {
  $("game").value = location.hash.slice(1);
  open($("game").value);
}
$("first").onclick = () => show(1);
$("back").onclick = () => step(-1);
$("next").onclick = () => step(1);
$("now").onclick = () => show(0);
$("after").onchange = drawMap;
$("larger").onclick = () => map.zoom(1 / 1.4);
$("smaller").onclick = () => map.zoom(1.4);
$("whole").onclick = () => map.whole();
$("what").onchange = form;
$("power").onchange = form;
for (const r of document.querySelectorAll("[name=vote]")) r.onchange = form;
$("clear").onclick = () => { $("orders").value = ""; drawMap(); };
$("letter").onsubmit = (e) => { e.preventDefault(); if (!$("send").disabled) sendLetter(); };
$("map").addEventListener("click", (e) => {
  const u = e.target.closest("[data-unit]");
  const n = e.target.closest("[data-province]")?.dataset.province;
  if (!n || !game) return;
  if (shown) {
    show(0);
    $("hint").textContent = "This is the board now. Click again to give an order.";
    return;
  }
  if ($("what").value !== "ORDERS") { $("what").value = "ORDERS"; form(); }
  orders.clicked(n, u?.dataset.unit, u?.dataset.power);
  allowed();
});
document.addEventListener("keydown", (e) => {
  if (e.altKey || e.ctrlKey || e.metaKey || e.shiftKey
    || e.target.closest("input, select, textarea")) return;
  if (e.key === "ArrowLeft") step(-1);
  else if (e.key === "ArrowRight") step(1);
  else return;
  e.preventDefault();
});
// The secret doesn't outlive the page, not even in the browser's store of pages gone back from.
addEventListener("pagehide", forget);
setInterval(() => { if (!document.hidden) { if (game) look(); else fromHash(); } }, 60000);
offerGames();
fromHash();

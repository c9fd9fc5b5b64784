// Reads what the judge writes: games as JSON, papers as text, orders as lines.

const BOARD = /^([a-z]+) (\d+)\/(\d+): (.+) \| (.+)$/;
const UNIT = /^([AF]) ([a-z]+)(\/[a-z]+)?(\*)?$/;
const PLACE = "([a-z]{3})(/[a-z]+)?";
const OTHER = `([AF]) ${PLACE}`;
const ORDERS = [
  [`^${OTHER} H$`, (m) => order(m, "hold")],
  [`^${OTHER} - ${PLACE}( VIA)?$`,
    (m) => order(m, "move", { to: m[4] + (m[5] || ""), via: !!m[6] })],
  [`^${OTHER} S ${OTHER} - ${PLACE}$`,
    (m) => order(m, "support", { other: m[5], kind2: m[4], to: m[7] })],
  [`^${OTHER} S ${OTHER}$`, (m) => order(m, "support", { other: m[5], kind2: m[4] })],
  [`^${OTHER} C ${OTHER} - ${PLACE}$`,
    (m) => order(m, "convoy", { other: m[5], kind2: m[4], to: m[7] })],
  [`^${OTHER} R ${PLACE}$`, (m) => order(m, "retreat", { to: m[4] + (m[5] || "") })],
  [`^${OTHER} D$`, (m) => order(m, "disband")],
  [`^BUILD ${OTHER}$`, (m) => order(m, "build")],
  [`^REMOVE ${OTHER}$`, (m) => order(m, "remove")],
].map(([form, make]) => [new RegExp(form, "i"), make]);

function order(m, does, more = {}) {
  return { does, kind: m[1].toUpperCase(), at: (m[2] + (m[3] || "")).toLowerCase(),
    ...Object.fromEntries(Object.entries(more).map(([k, v]) =>
      [k, typeof v !== "string" ? v : k === "kind2" ? v.toUpperCase() : v.toLowerCase()])) };
}

// An order as a player types it or a paper has it; null where it is none.
export function readOrder(text) {
  const line = text.trim().replace(/\s+/g, " ").replace(/ ?- ?/g, " - ");
  for (const [form, make] of ORDERS) {
    const m = line.match(form);
    if (m) return make(m);
  }
  return null;
}

// The one form of an order, as the judge prints it.
export function orderText(o) {
  const own = `${o.kind} ${o.at}`;
  const them = `${o.kind2} ${o.other}${o.to ? " - " + o.to : ""}`;
  return {
    hold: `${own} H`, disband: `${own} D`, build: `BUILD ${own}`, remove: `REMOVE ${own}`,
    move: `${own} - ${o.to}${o.via ? " VIA" : ""}`, retreat: `${own} R ${o.to}`,
    support: `${own} S ${them}`, convoy: `${own} C ${them}`,
  }[o.does];
}

// Words that people write in orders, and those of the judge.
const WORDS = [
  [/[.;,!]+$/, ""],
  [/\b(?:via|by) convoy$/, "via"],
  [/\barmy\b/g, "a"],
  [/\bfleet\b/g, "f"],
  [/ ?[-=]*> ?/g, " - "],
  [/\b(?:moves?|goes)\b(?: to\b)?/g, " - "],
  [/\bretreats?\b(?: to\b)?/g, "r"],
  [/\bdisbands?\b/g, "d"],
  [/\b(?:holds?|stands?)\b/g, "h"],
  [/\bsupports?\b/g, "s"],
  [/\bconvoys?\b/g, "c"],
  [/\bbuilds?\b/g, "build"],
  [/\bremoves?\b/g, "remove"],
  [/ to /g, " - "],
  [/ in /g, " "],
  [/\b(north|south|east) coast\b/g, (_, c) => c[0] + "c"],
  [/\b([a-z]{3}) ?[/(]? ?([nse]c)\b\)?/g, "$1/$2"],
  [/ ?- ?(?:- ?)*/g, " - "],
  [/( s [af] [a-z]{3}(?:\/[a-z]+)?) h$/, "$1"],
];
const OLD_NAMES = [["romania", "rum"], ["heligoland bight", "hel"], ["heligoland", "hel"],
  ["gulf of lyons", "lyo"], ["tyrol", "tyr"], ["english channel", "eng"], ["mid atlantic", "mao"]];

// An order that people can read, in the judge's form; any other line as it is. `names` are pairs
// of a province's code and its name.
export function tidyOrder(text, names) {
  const read = readOrder(text);
  if (read || !text.trim()) return read ? orderText(read) : text;
  const low = (s) => s.toLowerCase().replace(/\bst\. ?/g, "st ").replace(/\bmid-/g, "mid ");
  const known = [...names.map(([code, name]) => [low(name), code]), ...OLD_NAMES]
    .sort((a, b) => b[0].length - a[0].length);     // Tyrolia before Tyrol
  let line = low(text.trim()).replace(/\s+/g, " ");
  for (const [name, code] of known) line = line.replace(new RegExp(`\\b${name}\\b`, "g"), code);
  for (const [from, to] of WORDS) line = line.replace(from, to);
  const order = readOrder(line);
  return order ? orderText(order) : text;
}

export const provinceOf = (place) => place.split("/")[0].replace("*", "");
export const unitWords = (u) => `${u.kind} ${u.at}`;

// "france 3/3: F bre, A mar* | bre mar": centres and units of a power.
export function readBoardLine(line) {
  const m = line.match(BOARD);
  if (!m) return null;
  const units = m[4] === "-" ? [] : m[4].split(", ").map((text) => {
    const u = text.match(UNIT);
    return u && { kind: u[1], at: u[2] + (u[3] || ""), out: !!u[4], power: m[1] };
  });
  if (units.includes(null)) return null;
  const own = m[5] === "-" ? [] : m[5].split(" ");
  return { power: m[1], centres: +m[2], count: +m[3], units, own };
}

export function readPaper(text) {
  const paper = { number: 0, title: "", notice: [], orders: [], changes: [], waived: [], rest: [],
    board: [], game: "", text };
  for (const line of text.split("\n")) {
    let m;
    if ((m = line.match(/^PAPER (\d+) (.*)$/))) {
      paper.number = +m[1];
      paper.title = m[2];
    } else if (line.startsWith("> ")) paper.notice.push(line.slice(2));
    else if (line.startsWith("GAME ")) paper.game = line;
    else if ((m = readBoardLine(line))) paper.board.push(m);
    else if ((m = line.match(/^centre ([a-z]+): ([a-z]+)$/))) {
      paper.changes.push({ centre: m[1], power: m[2] });
    } else if ((m = line.match(/^([a-z]+) waives (\d+)$/))) {
      paper.waived.push({ power: m[1], count: +m[2] });
    } else if ((m = line.match(/^([a-z]+) (.+): ([^:]+)$/)) && readOrder(m[2])) {
      const [outcome, fate = ""] = m[3].split(", ");
      paper.orders.push({ power: m[1], text: m[2], ...readOrder(m[2]), outcome, fate });
    } else if (line && line !== "END") paper.rest.push(line);
  }
  return paper;
}

const SEASON = { S: "Spring", F: "Fall", W: "Winter" };
const PART = { M: "moves", R: "retreats", A: "builds and removals" };

export function phaseWords(phase) {
  const m = phase.match(/^([SFW])(\d+)([MRA])$/);
  return m ? `${SEASON[m[1]]} ${m[2]}, ${PART[m[3]]}` : phase;
}

export function titleWords(title) {
  return { opening: "the opening", notice: "a notice", draw: "a draw" }[title] || phaseWords(title);
}

export const nameOf = (power) => power[0].toUpperCase() + power.slice(1);
export const namesOf = (powers) =>
  powers.map(nameOf).join(", ").replace(/, ([^,]*)$/, " and $1");

export function statusWords(status) {
  const m = status.match(/^(won|drawn) by (.*)$/);
  if (m && m[1] === "won") return `${nameOf(m[2])} has won`;
  if (m) return `drawn between ${namesOf(m[2].split(" "))}`;
  return { running: "running", paused: "paused: nothing is played until the master resumes it",
    closed: "closed by the master", ended: "ended: its years are over" }[status] || status;
}

// A tick is told as a date where it can be minutes since 1970: from the year 2000 to 2100.
export const isDate = (tick) => tick >= 15778080 && tick <= 68374080;

export function tickWords(tick) {
  if (!isDate(tick)) return `tick ${tick}`;
  return new Date(tick * 60000).toLocaleString(undefined, { weekday: "short", day: "numeric",
    month: "short", year: "numeric", hour: "2-digit", minute: "2-digit", timeZoneName: "short" });
}

// Centres of each power after each year: [{year, counts: {power: centres}}].
export function centresByYear(papers) {
  const years = [];
  for (const paper of papers) {
    const m = paper.title.match(/^[SFW](\d+)/);
    const year = m ? m[1] : years.length ? years.at(-1).year : "start";
    const counts = Object.fromEntries(paper.board.map((b) => [b.power, b.centres]));
    if (years.length && years.at(-1).year === year) years.at(-1).counts = counts;
    else years.push({ year, counts });
  }
  return years;
}

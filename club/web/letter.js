// Writes letters to the judge, posts them, and puts replies in plain words.

// The judge reads printable ASCII alone: curly quotes, dashes and accents are written without.
const FOLDS = { "‘": "'", "’": "'", "‚": "'", "“": '"', "”": '"', "„": '"', "«": '"', "»": '"',
  "–": "-", "—": "-", "‐": "-", "‑": "-", "−": "-", "…": "...", "→": "-", "ß": "ss", "æ": "ae",
    "Æ": "Ae",
  "œ": "oe", "Œ": "Oe", "ø": "o", "Ø": "O", "ł": "l", "Ł": "L", "đ": "d", "ð": "d", "þ": "th",
    "€": "EUR",
  "£": "GBP", "ä": "ae", "ö": "oe", "ü": "ue", "Ä": "Ae", "Ö": "Oe", "Ü": "Ue", "\t": " ",
    "\u00a0": " " };

export function plain(text) {
  return text.normalize("NFC").replace(/\r\n?/g, "\n").replace(/[^\n -~]/gu, (c) => FOLDS[c] ??
    (c.normalize("NFKD").replace(/[^ -~]/g, "") || (/\p{M}|\u200b|\u200d|\ufe0f/u.test(c) ? ""
      : "?")));
}

// Lines of press: at most 200 characters each, cut between words where that can be.
export function pressLines(text) {
  const lines = [];
  for (let line of plain(text).replace(/\n+$/, "").split("\n")) {
    while (line.length > 200) {
      const cut = line.lastIndexOf(" ", 200);
      lines.push(line.slice(0, cut > 0 ? cut : 200));
      line = line.slice(cut > 0 ? cut + 1 : 200);
    }
    lines.push(line);
  }
  return lines;
}

export const orderLines = (text) => plain(text).split("\n").map((l) => l.trim()).filter(Boolean);

// What the form asks for, as lines of a letter; or {fault} in words, before anything is sent.
export function commandOf(want) {
  const named = want.powers;
  if (want.what === "ORDERS") {
    const lines = orderLines(want.orders);
    if (!lines.length) return { fault: "Write at least one order first." };
    if (lines.length > 64) return { fault: "A letter takes 64 orders at most." };
    const long = lines.find((l) => l.length > 100);
    if (long) return { fault: `This line has more than 100 characters: ${long.slice(0, 40)} ...` };
    return { lines: ["ORDERS", ...lines], orders: lines };
  }
  if (want.what.startsWith("PRESS")) {
    const lines = pressLines(want.press);
    if (!named.length) return { fault: "Choose at least one reader." };
    if (!want.press.trim()) return { fault: "Write some text first." };
    if (lines.length > 80) {
      return { fault: `The text has ${lines.length} lines. A letter takes 80: send it in two.` };
    }
    return { lines: [`${want.what} TO ${named.join(" ")}`, ...lines.map((l) => "> " + l)] };
  }
  if (want.what === "VOTE") {
    if (want.vote !== "FOR") return { lines: ["VOTE " + want.vote] };
    if (!named.length) return { fault: "Choose the powers that share the draw." };
    return { lines: ["VOTE FOR " + named.join(" ")] };
  }
  if (want.what === "INBOX") {
    const number = /^[1-9]\d{0,5}$/.test(want.first);
    if (!number) return { fault: "The first item is a number from 1 on." };
    return { lines: ["INBOX " + want.first] };
  }
  return { lines: [want.what] };
}

// Letters are numbered by the clock, in seconds since 2023: two devices seldom take the same
// number.
const LAST = 999999999;
const used = {};
function numberFor(who) {
  return Math.max(Math.floor(Date.now() / 1000 - 1672531200), (used[who] || 0) + 1);
}

const letterOf = (game, from, secret, number, lines) =>
  ["LETTER", "GAME " + game, "FROM " + from, "SECRET " + secret, "NUMBER " + number, ...lines,
    "END", ""].join("\n");

const pause = (ms) => new Promise((done) => setTimeout(done, ms));

// Posts the same bytes until somebody answers: the judge takes a letter once, however often it
// comes.
async function post(bytes, say) {
  let doubt = false;
  for (let i = 0; i < 5; i++) {
    if (i) {
      say(`No answer yet. The same letter goes out again (${i + 1} of 5); it counts once.`);
      await pause(1000 * i);
    }
    try {
      const answer = await fetch("/letters", { method: "POST", body: bytes, cache: "no-store",
        credentials: "omit", signal: AbortSignal.timeout(45000) });
      if (![429, 502, 503, 504].includes(answer.status)) {
        return { status: answer.status, text: await answer.text(), doubt };
      }
      doubt ||= answer.status !== 429;
    } catch { doubt = true; }
  }
  return { status: 0, text: "", doubt };
}

const AWAY = "The judge doesn't answer. It isn't known whether your letter arrived. Wait some "
  + "minutes, change nothing and press Send again: the same letter goes out then, and counts once.";
const BETWEEN = "Another letter of yours came between, from another window or device. It isn't "
  + "known whether this one was taken before. Look with Show; if it wasn't, press Send again.";
const TOO_LONG = "The letter is too long: 16,384 characters are the limit. Send it in two.";
const STRANGE = "This address doesn't answer as a judge does (status N). Tell your secretary.";
const TWO_PLACES = "Letters of yours come from two places at once. Close the other one and press "
  + "Send again.";
let open = null;     // the letter of which no answer came: whose, its number and its lines

// Sends a letter. Answers {fault} in words, or {text, sent}: the reply, and the letter without its
// secret.
export async function send({ game, from, secret, lines }, say) {
  const who = game + " " + from;
  const again = open?.who === who && open.lines.join("\n") === lines.join("\n") ? open : null;
  let number = again ? again.number : numberFor(who);
  open = null;
  for (let i = 0; i < 4; i++) {
    if (number > LAST) return { fault: "Your letters' numbers are used up. Ask your master." };
    const bytes = letterOf(game, from, secret, number, lines);
    const sent = letterOf(game, from, "(left out)", number, lines);
    if (bytes.length > 16384) return { fault: TOO_LONG };
    const answer = await post(bytes, say);
    if (!answer.status) {
      open = { who, number, lines };
      return { fault: AWAY, sent };
    }
    if (answer.status === 413) return { fault: TOO_LONG, sent };
    if (!answer.text.startsWith("REPLY ")) {
      return { fault: STRANGE.replace("N", answer.status), sent };
    }
    const refused = answer.text.split("\n")[1] || "";
    if (!refused.startsWith("L2 ")) used[who] = Math.max(used[who] || 0, number);
    const stale = refused.match(/^L3 stale number, last is (\d+)/);
    if (!stale && !refused.startsWith("L4 ")) return { text: answer.text, sent };
    if (again || answer.doubt) return { fault: BETWEEN, sent, text: answer.text };
    number = (stale ? Math.max(+stale[1], number) : number) + 1;
  }
  return { fault: TWO_PLACES };
}

const WHY = {
  O1: "this isn't an order the judge can read. Write it as in: A par - bur",
  O2: "there is no province with that code",
  O3: "you have no unit there. After a battle only dislodged units may be ordered",
  O4: "the unit there is of the other kind. A is an army, F a fleet",
  O5: "the unit can't come there in one move",
  O6: "the fleet can come to two coasts there. Name one, as in spa/nc",
  O7: "that coast is wrong: it isn't there, the fleet can't come to it, or an army has no coast",
  O8: "there is no such unit to support or convoy",
  O9: "the support is out of reach: your unit couldn't go there, or the other can't make that move",
  O10: "no convoy can do that: the seas don't join, or your fleet isn't in a sea",
  O11: "this kind of order isn't for this phase",
  O12: "nothing can be built there: it must be a home centre of yours, owned by you and empty",
  O13: "you have ordered as many as you may. Take your orders back first, then order anew",
  O14: "the unit can't retreat there: somebody is there, the attacker came from there, "
    + "a standoff was there, or it is too far",
  L1: "the letter has a wrong form. Look for strange signs or a name that stands twice",
  L2: "game, power or secret is wrong. The judge doesn't tell which",
  L3: "a later letter of yours was taken before",
  L4: "the number of this letter was used by another",
  L5: "the letter is too long. Send it in two",
  L6: "you have sent as much press as a game allows",
  L7: "this game takes no unsigned press. Send it signed",
  L8: "the game is over. Show and the inbox are all that is answered",
  L9: "this is a command for the master",
  L10: "the game isn't due yet",
  L11: "there is a game of that name already",
};

// The reply line by line: [{ok, line, order, why}], where `order` is the line that was sent.
export function explain(text, orders = []) {
  return text.split("\n").slice(1).filter((l) => l && l !== "END").map((line) => {
    const m = line.match(/^([OL]\d+)(?: line (\d+):)?/);
    if (m && WHY[m[1]]) return { ok: false, code: m[1], line, order: m[2] ? orders[m[2] - 1] : "",
      why: WHY[m[1]] };
    return { ok: line.startsWith("OK "), line: line.replace(/^OK /, "") };
  });
}

//! A plain judge for letters that need no tick: CREATE, ORDERS, WITHDRAW, PRESS, VOTE, SHOW and INBOX, with all games in memory.
//! It is what a programmer writes who proves nothing: hash maps, one buffer a reply, one write a reply; with the name of a file each letter is
//! also one transaction there, but for press, which is kept in memory alone.
//! `bench/beside/run` compiles it and times it beside the judge, over the same bytes, whose replies have to be the same.
mod store;

use std::collections::{BTreeMap, HashMap};
use std::fmt::Write as _;
use std::fs;
use std::io::{self, Read, Write};
use std::os::fd::AsFd;
use store::{Does, Store, Value};

type Code = [u8; 3];
type Sum = [u8; 32];

const K: [u32; 64] = [
    0x428a2f98, 0x71374491, 0xb5c0fbcf, 0xe9b5dba5, 0x3956c25b, 0x59f111f1, 0x923f82a4, 0xab1c5ed5, 0xd807aa98, 0x12835b01, 0x243185be,
    0x550c7dc3, 0x72be5d74, 0x80deb1fe, 0x9bdc06a7, 0xc19bf174, 0xe49b69c1, 0xefbe4786, 0x0fc19dc6, 0x240ca1cc, 0x2de92c6f, 0x4a7484aa,
    0x5cb0a9dc, 0x76f988da, 0x983e5152, 0xa831c66d, 0xb00327c8, 0xbf597fc7, 0xc6e00bf3, 0xd5a79147, 0x06ca6351, 0x14292967, 0x27b70a85,
    0x2e1b2138, 0x4d2c6dfc, 0x53380d13, 0x650a7354, 0x766a0abb, 0x81c2c92e, 0x92722c85, 0xa2bfe8a1, 0xa81a664b, 0xc24b8b70, 0xc76c51a3,
    0xd192e819, 0xd6990624, 0xf40e3585, 0x106aa070, 0x19a4c116, 0x1e376c08, 0x2748774c, 0x34b0bcb5, 0x391c0cb3, 0x4ed8aa4a, 0x5b9cca4f,
    0x682e6ff3, 0x748f82ee, 0x78a5636f, 0x84c87814, 0x8cc70208, 0x90befffa, 0xa4506ceb, 0xbef9a3f7, 0xc67178f2,
];

fn compress(state: &mut [u32; 8], block: &[u8]) {
    let mut w = [0u32; 64];
    for i in 0..16 {
        w[i] = u32::from_be_bytes(block[4 * i..4 * i + 4].try_into().unwrap());
    }
    for i in 16..64 {
        let (x, y) = (w[i - 15], w[i - 2]);
        let s0 = x.rotate_right(7) ^ x.rotate_right(18) ^ (x >> 3);
        let s1 = y.rotate_right(17) ^ y.rotate_right(19) ^ (y >> 10);
        w[i] = w[i - 16].wrapping_add(s0).wrapping_add(w[i - 7]).wrapping_add(s1);
    }
    let mut v = *state;
    for i in 0..64 {
        let s1 = v[4].rotate_right(6) ^ v[4].rotate_right(11) ^ v[4].rotate_right(25);
        let ch = (v[4] & v[5]) ^ (!v[4] & v[6]);
        let t1 = v[7].wrapping_add(s1).wrapping_add(ch).wrapping_add(K[i]).wrapping_add(w[i]);
        let s0 = v[0].rotate_right(2) ^ v[0].rotate_right(13) ^ v[0].rotate_right(22);
        let maj = (v[0] & v[1]) ^ (v[0] & v[2]) ^ (v[1] & v[2]);
        v = [t1.wrapping_add(s0.wrapping_add(maj)), v[0], v[1], v[2], v[3].wrapping_add(t1), v[4], v[5], v[6]];
    }
    for i in 0..8 {
        state[i] = state[i].wrapping_add(v[i]);
    }
}

fn sha256(parts: &[&[u8]]) -> Sum {
    let mut state = [0x6a09e667, 0xbb67ae85, 0x3c6ef372, 0xa54ff53a, 0x510e527f, 0x9b05688c, 0x1f83d9ab, 0x5be0cd19];
    let (mut block, mut filled, mut size) = ([0u8; 64], 0, 0u64);
    for part in parts {
        size += part.len() as u64;
        let mut rest = *part;
        while filled + rest.len() >= 64 {
            let (taken, left) = rest.split_at(64 - filled);
            block[filled..].copy_from_slice(taken);
            compress(&mut state, &block);
            (filled, rest) = (0, left);
        }
        block[filled..filled + rest.len()].copy_from_slice(rest);
        filled += rest.len();
    }
    block[filled] = 0x80;
    block[filled + 1..].fill(0);
    if filled >= 56 {
        compress(&mut state, &block);
        block.fill(0);
    }
    block[56..].copy_from_slice(&(size * 8).to_be_bytes());
    compress(&mut state, &block);
    let mut sum = [0; 32];
    for (bytes, word) in sum.chunks_mut(4).zip(state) {
        bytes.copy_from_slice(&word.to_be_bytes());
    }
    sum
}

#[derive(Default)]
struct Map {
    powers: Vec<String>,
    kinds: HashMap<Code, u8>,
    army: HashMap<Code, Vec<Code>>,
    fleet: HashMap<(Code, String), Vec<(Code, String)>>,
    coasts: HashMap<Code, Vec<String>>,
    homes: Vec<(usize, Code)>,
    units: Vec<(usize, u8, Code, String)>,
}

fn code_of(text: &str) -> Code {
    text.as_bytes()[..3].try_into().unwrap()
}

fn place_of(text: &str) -> (Code, String) {
    (code_of(text), text.get(4..).unwrap_or("").to_string())
}

/// A map as `run` writes it: a line each of powers, provinces, neighbours by land and by sea, homes and units.
fn read_map(path: &str) -> Map {
    let text = fs::read_to_string(path).expect("a map");
    let mut map = Map::default();
    for line in text.lines() {
        let words: Vec<&str> = line.split(' ').collect();
        match words[0] {
            "power" => map.powers.push(words[1].into()),
            "kind" => {
                map.kinds.insert(code_of(words[1]), words[2].as_bytes()[0]);
            }
            "coast" => map.coasts.entry(code_of(words[1])).or_default().push(words[2].into()),
            "army" => {
                map.army.insert(code_of(words[1]), words[2..].iter().map(|it| code_of(it)).collect());
            }
            "fleet" => {
                map.fleet.insert(place_of(words[1]), words[2..].iter().map(|it| place_of(it)).collect());
            }
            "home" => {
                let power = map.power(words[1]).unwrap();
                map.homes.push((power, code_of(words[2])));
            }
            _ => {
                let (power, (code, coast)) = (map.power(words[1]).unwrap(), place_of(words[3]));
                map.units.push((power, words[2].as_bytes()[0], code, coast));
            }
        }
    }
    map
}

impl Map {
    fn power(&self, name: &str) -> Option<usize> {
        self.powers.iter().position(|it| it == name)
    }

    fn could_move(&self, kind: u8, code: Code, coast: &str, to: Code) -> bool {
        if kind == b'A' {
            return self.army.get(&code).is_some_and(|them| them.contains(&to));
        }
        self.fleet.get(&(code, coast.to_string())).is_some_and(|them| them.iter().any(|it| it.0 == to))
    }

    fn is_coastal(&self, code: Code) -> bool {
        self.kinds[&code] == b'c'
    }

    fn spans_water(&self, code: Code, to: Code) -> bool {
        self.is_coastal(code) && self.is_coastal(to) && code != to
    }

    fn lacks(&self, code: Code, coast: &str) -> bool {
        !coast.is_empty() && !self.coasts.get(&code).is_some_and(|them| them.iter().any(|it| it == coast))
    }
}

struct Unit {
    power: usize,
    kind: u8,
    coast: String,
}

struct Seat {
    digest: Sum,
    last: u32,
    sum: Sum,
    reply: String,
    vote: String,
    sent: u32,
    inbox: Vec<(String, String)>,
    pending: BTreeMap<Code, String>,
}

impl Seat {
    fn new(digest: Sum) -> Seat {
        let (reply, vote) = (String::new(), "NO".into());
        Seat { digest, last: 0, sum: [0; 32], reply, vote, sent: 0, inbox: Vec::new(), pending: BTreeMap::new() }
    }
}

struct Game {
    due: u64,
    period: u32,
    grey: bool,
    papers: u32,
    units: BTreeMap<Code, Unit>,
    owner: BTreeMap<Code, usize>,
    seats: Vec<Seat>,
}

struct Desk {
    map: Map,
    master: Seat,
    games: HashMap<String, Game>,
    store: Option<Store>,
}

fn text(code: &[u8]) -> &str {
    std::str::from_utf8(code).unwrap()
}

fn push_place(out: &mut String, code: Code, coast: &str) {
    out.push_str(text(&code));
    if !coast.is_empty() {
        out.push('/');
        out.push_str(coast);
    }
}

/// The board, a line a power: one pass over the units, one over the centres.
fn push_lines(out: &mut String, map: &Map, game: &Game) {
    let mut lines = vec![(0, String::with_capacity(96), 0, String::with_capacity(96)); map.powers.len()];
    for (code, unit) in &game.units {
        let (count, line, _, _) = &mut lines[unit.power];
        line.push_str(if *count > 0 { ", " } else { "" });
        line.push(unit.kind as char);
        line.push(' ');
        push_place(line, *code, &unit.coast);
        *count += 1;
    }
    for (code, power) in &game.owner {
        let (_, _, count, line) = &mut lines[*power];
        line.push(' ');
        line.push_str(text(code));
        *count += 1;
    }
    for (power, (units, line, centres, owned)) in map.powers.iter().zip(&lines) {
        let (line, owned) = (if *units == 0 { "-" } else { line }, if *centres == 0 { " -" } else { owned });
        let _ = writeln!(out, "{power} {centres}/{units}: {line} |{owned}");
    }
}

fn place_in(word: &str) -> Option<(Code, &str)> {
    let code = word.as_bytes().get(..3).filter(|it| it.iter().all(u8::is_ascii_lowercase))?;
    let coast = match &word[3..] {
        "" => "",
        rest if rest.len() == 3 && rest.starts_with('/') => &rest[1..],
        _ => return None,
    };
    Some((code.try_into().unwrap(), coast))
}

/// An order of a movement phase, as it is printed, with its unit's province; or the number of its fault.
fn read_order(map: &Map, game: &Game, power: usize, line: &str) -> Result<(Code, String), u8> {
    let lower = line.to_ascii_lowercase();
    let mut words: Vec<&str> = Vec::with_capacity(8);
    for word in lower.split(' ').filter(|it| !it.is_empty()) {
        words.push(word);
    }
    if words.len() < 3 || !(words[0] == "a" || words[0] == "f") {
        return Err(1);
    }
    let kind = words[0].as_bytes()[0].to_ascii_uppercase();
    let (code, coast) = place_in(words[1]).ok_or(1)?;
    let known = |it: &Code| map.kinds.contains_key(it);
    let own = |form_is_known: bool| -> Result<&Unit, u8> {
        if !form_is_known || !known(&code) {
            return Err(2);
        }
        let unit = game.units.get(&code).filter(|it| it.power == power).ok_or(3)?;
        if unit.kind != kind {
            return Err(4);
        }
        if map.lacks(code, coast) { Err(7) } else { Ok(unit) }
    };
    let mut out = String::with_capacity(32);
    let head = |out: &mut String, unit: &Unit| {
        out.push(kind as char);
        out.push(' ');
        push_place(out, code, &unit.coast);
    };
    match words[2..] {
        ["h"] => {
            head(&mut out, own(true)?);
            out.push_str(" H");
        }
        ["-", to] | ["-", to, "via"] => {
            let (to, shore) = place_in(to).ok_or(1)?;
            let unit = own(known(&to))?;
            let via = words.len() == 5;
            head(&mut out, unit);
            out.push_str(" - ");
            if kind == b'A' {
                if !shore.is_empty() {
                    return Err(7);
                }
                let by_sea = map.spans_water(code, to);
                if via && !by_sea {
                    return Err(10);
                }
                if !via && !by_sea && !map.could_move(b'A', code, "", to) {
                    return Err(5);
                }
                push_place(&mut out, to, "");
                out.push_str(if via { " VIA" } else { "" });
            } else {
                if via {
                    return Err(4);
                }
                let near = map.fleet.get(&(code, unit.coast.clone())).ok_or(5)?;
                let found: Vec<&str> = near.iter().filter(|it| it.0 == to).map(|it| it.1.as_str()).collect();
                if found.is_empty() {
                    return Err(5);
                }
                if !shore.is_empty() && !found.contains(&shore) {
                    return Err(7);
                }
                if shore.is_empty() && found.len() > 1 {
                    return Err(6);
                }
                push_place(&mut out, to, if shore.is_empty() { found[0] } else { shore });
            }
        }
        ["s", other, at, ref rest @ ..] if matches!(rest, [] | ["h"] | ["-", _]) => {
            let other = if other == "a" || other == "f" { other.as_bytes()[0].to_ascii_uppercase() } else { return Err(1) };
            let (at, shore) = place_in(at).ok_or(1)?;
            let to = if let ["-", to] = rest { Some(place_in(to).ok_or(1)?.0) } else { None };
            let unit = own(known(&at) && to.as_ref().is_none_or(known))?;
            let helped = game.units.get(&at).filter(|it| it.kind == other).ok_or(8)?;
            if map.lacks(at, shore) {
                return Err(7);
            }
            let aim = to.unwrap_or(at);
            if !map.could_move(kind, code, &unit.coast, aim) || aim == code {
                return Err(9);
            }
            if to.is_some() && !map.could_move(other, at, &helped.coast, aim) && !(other == b'A' && map.spans_water(at, aim)) {
                return Err(9);
            }
            head(&mut out, unit);
            out.push_str(" S ");
            out.push(other as char);
            out.push(' ');
            out.push_str(text(&at));
            if let Some(to) = to {
                out.push_str(" - ");
                out.push_str(text(&to));
            }
        }
        _ => return Err(1),
    }
    Ok((code, out))
}

struct Letter<'a> {
    game: &'a str,
    sender: &'a str,
    secret: &'a str,
    number: u32,
    lines: Vec<&'a str>,
    bytes: &'a [u8],
}

fn letter_in(bytes: &[u8]) -> Option<Letter<'_>> {
    if !bytes.iter().all(|&it| it == b'\n' || (b' '..=b'~').contains(&it)) {
        return None;
    }
    let all = text(bytes);
    let mut lines = all.lines();
    let mut field = |name: &str| lines.next()?.strip_prefix(name);
    field("LETTER")?;
    let (game, sender, secret) = (field("GAME ")?, field("FROM ")?, field("SECRET ")?);
    let number = field("NUMBER ")?.parse().ok()?;
    let mut lines: Vec<&str> = lines.collect();
    (lines.pop()? == "END").then_some(())?;
    Some(Letter { game, sender, secret, number, lines, bytes })
}

fn digest(game: &str, sender: &str, secret: &str) -> Sum {
    sha256(&[game.as_bytes(), b"\n", sender.as_bytes(), b"\n", secret.as_bytes()])
}

impl Desk {
    fn create(&mut self, letter: &Letter, out: &mut String) {
        let words: Vec<&str> = letter.lines[0].split(' ').collect();
        let mut seats: Vec<Seat> = self.map.powers.iter().map(|_| Seat::new([0; 32])).collect();
        for line in &letter.lines[1..] {
            let (power, secret) = line[5..].split_once(' ').unwrap();
            seats[self.map.power(power).unwrap()].digest = digest(letter.game, power, secret);
        }
        let units = self.map.units.iter().map(|(power, kind, code, coast)| {
            (*code, Unit { power: *power, kind: *kind, coast: coast.clone() })
        });
        let game = Game {
            due: words[2].parse().unwrap(),
            period: words[4].parse().unwrap(),
            grey: words[6] == "YES",
            papers: 1,
            units: units.collect(),
            owner: self.map.homes.iter().map(|(power, code)| (*code, *power)).collect(),
            seats,
        };
        self.games.insert(letter.game.into(), game);
        out.push_str("OK paper 1\n");
    }

    fn carry_out(map: &Map, game: &mut Game, power: usize, letter: &Letter, out: &mut String) {
        let words: Vec<&str> = letter.lines[0].split(' ').collect();
        match words[0] {
            "ORDERS" => {
                for (at, line) in letter.lines[1..].iter().enumerate() {
                    match read_order(map, game, power, line) {
                        Ok((code, order)) => {
                            let _ = writeln!(out, "OK {order}");
                            game.seats[power].pending.insert(code, order);
                        }
                        Err(fault) => {
                            let _ = writeln!(out, "O{fault} line {}", at + 1);
                        }
                    }
                }
            }
            "WITHDRAW" => {
                game.seats[power].pending.clear();
                out.push_str("OK withdrawn\n");
            }
            "VOTE" => {
                game.seats[power].vote = letter.lines[0][5..].into();
                let _ = writeln!(out, "OK vote {}", &letter.lines[0][5..]);
            }
            "PRESS" => {
                let (is_grey, to_all) = (words[1] == "GREY", words[3] == "all");
                let head = match (is_grey, to_all) {
                    (true, true) => "grey to all".to_string(),
                    (true, false) => "grey to you".to_string(),
                    _ => format!("white from {} to {}", letter.sender, words[3..].join(" ")),
                };
                let body = letter.lines[1..].iter().flat_map(|it| [*it, "\n"]).collect::<String>();
                for (other, seat) in game.seats.iter_mut().enumerate() {
                    if other == power {
                        seat.sent += 1;
                    } else if to_all || words[3..].contains(&map.powers[other].as_str()) {
                        seat.inbox.push((head.clone(), body.clone()));
                    }
                }
                out.push_str("OK press\n");
            }
            "INBOX" => {
                let seat = &game.seats[power];
                let first: usize = words[1].parse().unwrap();
                let _ = writeln!(out, "INBOX {}", seat.inbox.len());
                for (at, (head, body)) in seat.inbox.iter().enumerate().skip(first - 1).take(10) {
                    let _ = write!(out, "ITEM {} {head}\n{body}", at + 1);
                }
            }
            _ => {
                let seat = &game.seats[power];
                let grey = if game.grey { "YES" } else { "NO" };
                let (game_name, due, period, papers) = (letter.game, game.due, game.period, game.papers);
                let _ = writeln!(out, "GAME {game_name} S1901M running DUE {due} PERIOD {period} GREY {grey} PAPERS {papers}");
                push_lines(out, map, game);
                let _ = writeln!(out, "VOTE {}\nSENT {} INBOX {}", seat.vote, seat.sent, seat.inbox.len());
                for order in seat.pending.values() {
                    out.push_str("ORDER ");
                    out.push_str(order);
                    out.push('\n');
                }
            }
        }
    }

    fn take(&mut self, letter: &Letter, out: &mut String) {
        let (is_master, power) = (letter.sender == "master", self.map.power(letter.sender));
        let mut game = if is_master { None } else { self.games.get_mut(letter.game) };
        let author = match (&mut game, power) {
            (None, _) if is_master => Some(&mut self.master),
            (Some(game), Some(power)) => Some(&mut game.seats[power]),
            _ => None,
        };
        let known = match is_master {
            true => digest("desk", "master", letter.secret),
            false => digest(letter.game, letter.sender, letter.secret),
        };
        let Some(author) = author.filter(|it| it.digest == known) else {
            return out.push_str("REPLY nobody 0\nL2 unknown game, sender or secret\nEND\n");
        };
        let (sum, number) = (sha256(&[letter.bytes]), letter.number);
        let head = out.len();
        let _ = writeln!(out, "REPLY {} {} {number}", letter.game, letter.sender);
        if number == author.last && author.sum == sum {
            out.truncate(head);
            return out.push_str(&author.reply);
        } else if number <= author.last {
            let _ = match number == author.last {
                true => writeln!(out, "L4 number {number} used by another letter\nEND"),
                false => writeln!(out, "L3 stale number, last is {}\nEND", author.last),
            };
            return;
        }
        match (game, power) {
            (Some(game), Some(power)) => Self::carry_out(&self.map, game, power, letter, out),
            _ => self.create(letter, out),
        }
        out.push_str("END\n");
        let author = match power {
            Some(power) => &mut self.games.get_mut(letter.game).unwrap().seats[power],
            None => &mut self.master,
        };
        author.last = number;
        author.sum = sum;
        author.reply = out[head..].into();
        if let Some(store) = &self.store {
            self.save(store, letter, power);
        }
    }

    /// One transaction for a letter.
    fn save(&self, store: &Store, letter: &Letter, power: Option<usize>) {
        let (name, game) = (letter.game, &self.games[letter.game]);
        store.run(Does::Begin, &[]);
        match power {
            Some(power) => self.save_seat(store, letter, &game.seats[power]),
            None => {
                self.save_game(store, name, game);
                let of = &self.master;
                store.run(Does::NoteDesk, &[Value::Int(of.last.into()), Value::Bytes(&of.sum), Value::Text(&of.reply)]);
            }
        }
        store.run(Does::Commit, &[]);
    }

    fn save_seat(&self, store: &Store, letter: &Letter, seat: &Seat) {
        let (name, power) = (Value::Text(letter.game), Value::Text(letter.sender));
        let (last, sent, items) = (Value::Int(seat.last.into()), Value::Int(seat.sent.into()), Value::Int(seat.inbox.len() as i64));
        let row = [name, power, Value::Text(&seat.vote), last, Value::Bytes(&seat.sum), Value::Text(&seat.reply), sent, items];
        store.run(Does::NoteSeat, &row);
        if letter.lines[0] == "ORDERS" || letter.lines[0] == "WITHDRAW" {
            store.run(Does::DropOrders, &row[..2]);
            for (code, line) in &seat.pending {
                store.run(Does::AddOrder, &[Value::Text(letter.game), Value::Text(letter.sender), Value::Text(text(code)), Value::Text(line)]);
            }
        }
    }

    fn save_game(&self, store: &Store, name: &str, game: &Game) {
        let (due, period) = (Value::Int(game.due as i64), Value::Int(game.period.into()));
        store.run(Does::AddGame, &[Value::Text(name), due, period, Value::Int(game.grey.into())]);
        for (power, seat) in self.map.powers.iter().zip(&game.seats) {
            store.run(Does::AddSeat, &[Value::Text(name), Value::Text(power), Value::Bytes(&seat.digest)]);
        }
        for (code, unit) in &game.units {
            let (kind, power) = ([unit.kind], &self.map.powers[unit.power]);
            let place = [Value::Text(name), Value::Text(text(code)), Value::Text(power), Value::Text(text(&kind)), Value::Text(&unit.coast)];
            store.run(Does::AddUnit, &place);
        }
        for (code, power) in &game.owner {
            store.run(Does::AddCentre, &[Value::Text(name), Value::Text(text(code)), Value::Text(&self.map.powers[*power])]);
        }
    }
}

/// The end of the first letter: the byte after its first line that is END.
fn end_of(all: &str) -> usize {
    let mut at = 0;
    while let Some(line) = all[at..].find('\n') {
        let is_end = &all[at..at + line] == "END";
        at += line + 1;
        if is_end {
            return at;
        }
    }
    all.len()
}

fn main() {
    let words: Vec<String> = std::env::args().collect();
    let master = Seat::new(digest("desk", "master", &words[2]));
    let store = words.get(3).map(|path| Store::new(path));
    let mut desk = Desk { map: read_map(&words[1]), master, games: HashMap::new(), store };
    let mut input = String::new();
    io::stdin().read_to_string(&mut input).expect("letters in ASCII");
    let mut rest = &input[..];
    let mut told = fs::File::from(io::stdout().as_fd().try_clone_to_owned().expect("standard output"));
    let mut out = String::with_capacity(4096);
    while !rest.is_empty() {
        let end = end_of(rest);
        out.clear();
        match letter_in(rest[..end].as_bytes()) {
            Some(letter) => desk.take(&letter, &mut out),
            None => out.push_str("REPLY nobody 0\nL1 malformed letter\nEND\n"),
        }
        told.write_all(out.as_bytes()).expect("a reply");
        rest = &rest[end..];
    }
}

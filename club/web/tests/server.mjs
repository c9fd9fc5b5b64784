// What the tests need about the page: a judge over a fresh store, and a server of files before it.
import { spawn, execFileSync } from "node:child_process";
import fs from "node:fs";
import http from "node:http";
import path from "node:path";
import { sleep } from "./driver.mjs";

export const POLICY = "default-src 'none'; script-src 'self'; style-src 'self'; img-src 'self'; "
  + "connect-src 'self'; "
  + "form-action 'self'; base-uri 'none'; frame-ancestors 'none'";
const TYPES = { ".html": "text/html", ".js": "text/javascript", ".css": "text/css",
  ".svg": "image/svg+xml", ".txt": "text/plain" };

export async function judge(program, store, port, master, map) {
  if (!fs.existsSync(store)) execFileSync(program, ["init", "--store", store, "--master", master,
    ...(map ? ["--map", map] : [])]);
  const child = spawn(program, ["serve", "--store", store, "--port", port, "--count", 999999,
    ...(map ? ["--map", map] : [])],
    { stdio: ["ignore", "ignore", "pipe"] });
  let told = "";
  child.stderr.on("data", (d) => { told += d; });
  for (let i = 0; i < 200 && !told.includes("listens"); i++) await sleep(50);
  if (!told.includes("listens")) throw new Error("the judge doesn't serve: " + told);
  let number = 0;
  return {
    port,
    master: async (game, ...lines) => {
      const body = ["LETTER", "GAME " + game, "FROM master", "SECRET " + master,
        "NUMBER " + ++number, ...lines, "END", ""].join("\n");
      return (await fetch(`http://127.0.0.1:${port}/letters`, { method: "POST", body })).text();
    },
    end: async () => { child.kill();
      await new Promise((done) => { child.once("exit", done);
      if (child.exitCode !== null || child.signalCode) done(); }); },
  };
}

// Serves the folder, hands /letters and /games/ to the judge's port, and can be told to lose
// answers.
export function files(folder, port, to, games) {
  // made: answers by path, of games that nobody played
  const how = { busy: 0, lose: 0, away: false, taken: [], made: {} };
  const server = http.createServer((ask, answer) => {
    const url = new URL(ask.url, "http://x");
    const headers = { "Content-Security-Policy": POLICY, "X-Content-Type-Options": "nosniff",
      "Cache-Control": "no-cache" };
    if (how.made[url.pathname]) { answer.writeHead(200, headers);
      return answer.end(how.made[url.pathname]); }
    if (url.pathname === "/letters" || url.pathname.startsWith("/games/")) {
      const body = [];
      ask.on("data", (d) => body.push(d));
      ask.on("end", () => {
        const bytes = Buffer.concat(body);
        if (url.pathname === "/letters") how.taken.push(bytes.toString());
        if (how.busy > 0) { how.busy--; answer.writeHead(503, headers); return answer.end("503"); }
        if (how.away) { answer.writeHead(502, headers); return answer.end("502"); }
        const on = http.request({ host: "127.0.0.1", port: how.to ?? to, path: ask.url,
          method: ask.method, headers: { "Content-Length": bytes.length } }, (got) => {
          // An answer that is lost on its way: the judge has taken the letter.
          if (how.lose > 0 && url.pathname === "/letters") { how.lose--; got.resume();
            return ask.socket.destroy(); }
          answer.writeHead(got.statusCode,
            { ...headers, "Content-Type": got.headers["content-type"] });
          got.pipe(answer);
        });
        on.on("error", () => { answer.writeHead(502, headers); answer.end("502"); });
        on.end(bytes);
      });
      return;
    }
    if (url.pathname === "/paper") {
      const asked = (name) => url.searchParams.get(name);
      answer.writeHead(302,
        { ...headers, Location: `/games/${asked("game")}/papers/${asked("n")}` });
      return answer.end();
    }
    if (url.pathname === "/games.txt" && games) { answer.writeHead(200,
      { ...headers, "Content-Type": "text/plain" }); return answer.end(games); }
    const file = path.join(folder, url.pathname === "/" ? "index.html"
      : path.normalize(url.pathname));
    if (!file.startsWith(folder) || !fs.existsSync(file)
      || !fs.statSync(file).isFile()) { answer.writeHead(404, headers); return answer.end("404"); }
    answer.writeHead(200, { ...headers, "Content-Type": TYPES[path.extname(file)]
      || "text/plain" });
    fs.createReadStream(file).pipe(answer);
  });
  return new Promise((done) => server.listen(port, "127.0.0.1",
    () => done({ how, end: () => { server.closeAllConnections(); server.close(); } })));
}

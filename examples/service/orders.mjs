#!/usr/bin/env node
// orders.mjs SOCKET [ORDERS]: a client and a worker of a server, with tags and fences, sends so many orders,
// has each done, and receives the replies. Killed, it goes on where it was.
import { connect } from "node:net";
const [path, many = "100"] = process.argv.slice(2), WINDOW = 32;

// A session: each line goes out with a tag, by which its answer is known.
function session() {
  const waiting = new Map(), socket = connect(path);
  let rest = "", tag = 0, last = "the server has ended the connection";
  socket.setEncoding("latin1").on("data", (some) => {
    const lines = (rest + some).split("\n"); rest = lines.pop();
    for (const line of lines) {
      const [, of, text] = /^@(\S+) ?(.*)$/.exec(line) ?? [];
      if (!waiting.has(of)) { last = line; continue; }
      waiting.get(of).done(text), waiting.delete(of);
    }
  });
  socket.on("error", (fault) => { last = fault.message; })
    .on("close", () => waiting.forEach((it) => it.fail(new Error(last))));
  const ask = (line) => new Promise((done, fail) => {
    waiting.set(String(++tag), { done, fail });
    socket.write(`@${tag} ${line}\n`);
  });
  return { ask, end: () => socket.end() };
}

// Returns what the form finds in an answer. Another one is an Error.
function told(answer, form) {
  const found = form.exec(answer);
  if (!found) throw new Error(answer);
  return found.slice(1);
}

const { ask, end } = session();
told(await ask("version"), /^version \S+ lines ([2-9]|[1-9]\d+)$/);
const [epoch] = told(await ask("register shop new"), /^registered shop (\d+)$/);
let [sent, received] = told(await ask("last shop"), /^last shop sent (\d+).* received (\d+)/).map(Number);
// What an earlier life has left in hand is given up: by its fence, so that nothing else is.
const [, left, lost] = /^last ann hand (?:lost )?(\d+) .*?try (\d+)/.exec(await ask("last ann")) ?? [];
if (left) await ask(`abort ann =${left}:${lost}`);

let done = 0;
while (received < many) {
  const sends = Array.from({ length: Math.min(WINDOW, many - sent) }, (_, at) => sent + 1 + at);
  const asked = sends.map((number) => ask(`send shop/${epoch} ${number} 1 ${number} 0`));
  for (const it of asked) { told(await it, /^sent shop (\d+) (\d+|done)$/); sent += 1; }
  for (let work; (work = await ask("claim ann")) !== "ann idle";) {
    const [id, key, fence] = told(work, /^ann work (\d+) .* body (\d+):.* try (\d+)$/);
    told(await ask(`commit ann =${id}:${fence} 15:${key}:${2 * key}`), /^ann (done) /);
    done += 1;
  }
  for (let reply; (reply = await ask(`receive shop/${epoch} ${received + 1}`), !reply.endsWith(" none"));) {
    const [key, double] = told(reply, /^received shop \d+ \d+ \d+ (\d+):(\d+):/);
    if (double !== String(2 * key)) throw new Error(reply);
    received += 1;
  }
}
console.log(`sent ${sent}, done ${done}, received ${received}`);
end();

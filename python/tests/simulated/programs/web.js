// Clients of a server of HTTP in node: `web.js serve`, and `web.js`. They ask for clocks, draws, timers and the memory.
const crypto = require("crypto");
const http = require("http");

function answer(request, reply) {
  const told = [Date.now(), process.hrtime.bigint().toString(), Math.random(), crypto.randomUUID()];
  setTimeout(() => reply.end(JSON.stringify(told) + "x".repeat(Math.random() * 20000)), Math.random() * 5);
}

function ask(number) {
  http.get(`http://server:8080/${number}`, (reply) => {
    let text = "";
    reply.on("data", (part) => { text += part; });
    reply.on("end", () => console.log(number, performance.now(), text.length, text.slice(0, 100)));
  });
}

if (process.argv[2] === "serve") http.createServer(answer).listen(8080);
else {
  for (let number = 0; number < 20; number++) setTimeout(ask, 7 * number, number);
  setTimeout(() => console.log(process.pid, process.memoryUsage().heapUsed), 3000);
}

const request = new AsyncContext.Variable({ name: "request", defaultValue: "startup" });

const log = text => console.log("[" + request.get() + "]", text);

const order = number => {
  const started = 1200;
  log("looking up order " + number);
  return 1237 - started;
};

const serve = (user, path, handler) => request.run(user + " " + path, handler);

log("listening");
serve("ada", "GET /orders/17", () => {
  const time = order(17);
  log("took " + time + " ms");
  serve("grace", "GET /health", () => log("ok"));
  log("done");
});
log("ready");

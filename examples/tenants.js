const tenant = new AsyncContext.Variable({ name: "tenant", defaultValue: "nobody" });
const role = new AsyncContext.Variable({ name: "role" });

const label = () => tenant.get() + "/" + role.get();
const audit = (action, amount) => console.log(label(), action, amount);

const as = (name, kind, action) => tenant.run(name, () => role.run(kind, action));

audit("anonymous visit", 1);
as("acme", "admin", () => {
  audit("raised the limit by", 500);
  as("globex", "guest", () => audit("read pages", 3));
  audit("closed the session after", 37);
});

const counter = start => step => start + step;
const orders = counter(1000);
console.log(tenant.name, orders(1), orders(2));

const v = new AsyncContext.Variable({ defaultValue: "d" });
console.log(v.get());
v.run("a", () => {
  console.log(v.get());
  v.run("b", () => console.log(v.get()));
  console.log(v.get());
});
console.log(v.get());

const port = () => settings + 80;

console.log("starting");
console.log("port", port());
const settings = 8000;

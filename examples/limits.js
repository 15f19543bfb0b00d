const greatest = 9007199254740991;
const least = 0 - greatest;
console.log("numbers from", least, "to", greatest);
console.log("one more leaves the profile:");
console.log(greatest + 1);

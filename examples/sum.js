const apples = 3;
const pears = 4;
const each = 25;
console.log("fruit", apples + pears);
console.log("cents", (apples + pears) * each);

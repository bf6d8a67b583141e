var prices = {pen: {net: 2}, ink: {net: 7}};
var order = {pen: 3, ink: 1, paper: 5};
var total = 0;
for (var item in order) {
  total = total + order[item] * prices[item].net;
}

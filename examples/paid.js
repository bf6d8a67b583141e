function Cart() { this.prices = []; }
Cart.prototype.add = function (price) {
  this.prices.push(price);
};
Cart.prototype.total = function () {
  var sum = 0;
  for (var i = 0; i < this.prices.length; i++) {
    sum = sum + this.prices[i];
  }
  return sum;
};
Cart.prototype.discount = function (rate) {
  return this.total() - rate;
};
var cart = new Cart(), coupon = {code: "none"};
while (input()) { cart.add(number()); }
if (cart.total() > 100) { cart.discount(10); }
if (cart.total() < 10) { print("too little"); }
if (input()) { coupon.code.toString(); }

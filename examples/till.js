var sold = 0;
while (input()) {
  var price = number();
  if (price > 1) { print(text(), price); }
  sold = sold + price;
}
print("sold", sold);
print({sold: sold});

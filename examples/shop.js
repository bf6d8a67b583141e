var stock = {name: "tea", price: 2, next: null};
print(find(stock, text()).price);
print(fnd(stock, "tea").price);

var total = 0;
for (var month = 1; month <= 12; month++) {
  switch (month % 3) {
    case 0: fee = 30; break;
    case 1: fee = 10;
  }
  total = total + fee;
}
if (total > 150) {
  total = total(90) / 100;
}

function Counter(first) {
  var next = first;
  this.take = function () {
    return next++;
  };
}

var tickets = new Counter(100);
tickets.take();
var seats = Counter(1);
throw tickets.take() + seats.take();

var list = null, node, i = 0;
while (i < 3) {
  node = {};
  node.next = list;
  list = node;
  i = i + 1;
}
list.next.value;

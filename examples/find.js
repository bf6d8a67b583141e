function find(list, name) {
  for (; list != null; list = list.next) {
    if (list.name == name) { return list; }
  }
  return null;
}

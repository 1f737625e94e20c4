function total(all) {
  let sum = 0;
  for (const it of all) {
    sum += it.area() * it.side;
  }
  return Math.max(sum, 0);
}

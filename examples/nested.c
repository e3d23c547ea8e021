/* nested counters */
int main(void) {
  int i = 0, j = 0, k = 0;
  while (i < 10) {          // outer
    j = 0;
    while (j < i) {         // inner
      j++;
      k += 1;
    }
    i++;
  }
  return 0;
}

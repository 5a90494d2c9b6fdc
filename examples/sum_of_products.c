/* compile f s8.4 s8.4 */
#include "program.h"
#include <stdio.h>

/* Every input, compared with the exact sum at eight fraction bits. */
int main(void) {
  for (int a = -128; a <= 127; a++) {
    for (int b = -128; b <= 127; b++) {
      const int8_t in_a[1] = {(int8_t)a}, in_b[1] = {(int8_t)b};
      int32_t out_y[1] = {-1};
      if (fic_f(in_a, in_b, out_y) != 0 || out_y[0] != a * b + a * 16) {
        printf("a = %d, b = %d: %d\n", a, b, (int)out_y[0]);
        return 1;
      }
    }
  }
  return 0;
}

/* compile crossfade s16.15 s16.15 u8.8 */
#include "program.h"
#include <stdio.h>

static uint32_t state = 1;

static uint32_t next(void) {
  state = state * 1664525u + 1013904223u;
  return state >> 8;
}

/* A million inputs, the extreme ones among them, compared with exact arithmetic: sums of 256ths, rounded to the nearest, ties up. */
int main(void) {
  static const int16_t samples[4] = {-32768, 32767, 0, -1};
  for (long n = 0; n < 1000000; n++) {
    const int16_t a = n < 256 ? samples[n & 3] : (int16_t)(int32_t)(next() % 65536 - 32768);
    const int16_t b = n < 256 ? samples[(n >> 2) & 3] : (int16_t)(int32_t)(next() % 65536 - 32768);
    const uint8_t t = n < 256 ? (uint8_t)(((n >> 4) & 1) * 255) : (uint8_t)next();
    const int16_t in_a[1] = {a}, in_b[1] = {b};
    const uint8_t in_t[1] = {t};
    int16_t out_y[1] = {-1};
    const int64_t whole = (int64_t)a * 256 + (int64_t)t * ((int64_t)b - a);
    const int64_t up = whole + 128;
    int64_t y = up / 256;
    if (up < 0 && up % 256 != 0) {
      y = y - 1;
    }
    y = y > 32767 ? 32767 : y < -32768 ? -32768 : y;
    if (fic_crossfade(in_a, in_b, in_t, out_y) != 0 || out_y[0] != y) {
      printf("a = %d, b = %d, t = %d\n", a, b, t);
      return 1;
    }
  }
  return 0;
}

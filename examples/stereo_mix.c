/* compile stereo_mix s16.15 s16.15 u8.8 u8.8 */
#include "program.h"
#include <stdio.h>

static uint32_t state = 1;

static uint32_t next(void) {
  state = state * 1664525u + 1013904223u;
  return state >> 8;
}

/* A million inputs, the extreme ones among them, compared with exact sums. */
int main(void) {
  static const int16_t voices[4] = {-32768, 32767, 0, -1};
  for (long n = 0; n < 1000000; n++) {
    const int16_t voice = n < 256 ? voices[n & 3] : (int16_t)(int32_t)(next() % 65536 - 32768);
    const int16_t music = n < 256 ? voices[(n >> 2) & 3] : (int16_t)(int32_t)(next() % 65536 - 32768);
    const uint8_t gain = n < 256 ? (uint8_t)(((n >> 4) & 1) * 255) : (uint8_t)next();
    const uint8_t pan = n < 256 ? (uint8_t)(((n >> 5) & 1) * 255) : (uint8_t)next();
    const int16_t in_voice[1] = {voice}, in_music[1] = {music};
    const uint8_t in_gain[1] = {gain}, in_pan[1] = {pan};
    int64_t out_left[1] = {-1};
    int32_t out_right[1] = {-1};
    const int64_t wet = (int64_t)voice * gain;
    const int64_t left = wet * pan + (int64_t)music * 65536;
    const int64_t right = wet + (int64_t)music * gain;
    if (fic_stereo_mix(in_voice, in_music, in_gain, in_pan, out_left, out_right) != 0 || out_left[0] != left || out_right[0] != right) {
      printf("voice = %d, music = %d, gain = %d, pan = %d\n", voice, music, gain, pan);
      return 1;
    }
  }
  return 0;
}

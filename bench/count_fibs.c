/* Reads a file of FIBs in pieces of 256 KB, and counts those with a correct CRC (EN 300 401 clause 5.2.1), a byte at a time
   by a table: the plain loop that listen_speed.sh compares `dabplan listen` with. It decodes no FIG. */
#include <stdint.h>
#include <stdio.h>

static uint16_t table[256];
static uint8_t piece[262144];

static void make_table(void) {
  for (int byte = 0; byte < 256; byte++) {
    uint16_t word = (uint16_t)(byte << 8);
    for (int bit = 0; bit < 8; bit++) word = (uint16_t)(word & 0x8000 ? word << 1 ^ 0x1021 : word << 1);
    table[byte] = word;
  }
}

static int is_right(const uint8_t *fib) {
  uint16_t word = 0xFFFF;
  for (int at = 0; at < 30; at++) word = (uint16_t)(word << 8 ^ table[word >> 8 ^ fib[at]]);
  word ^= 0xFFFF;
  return fib[30] == word >> 8 && fib[31] == (word & 0xFF);
}

int main(int count, char **words) {
  FILE *file = count == 2 ? fopen(words[1], "rb") : NULL;
  if (file == NULL) return 1;
  make_table();
  unsigned long fibs = 0, right = 0;
  for (size_t size; (size = fread(piece, 1, sizeof piece, file)) > 0;)
    for (size_t at = 0; at + 32 <= size; at += 32) fibs++, right += (unsigned long)is_right(piece + at);
  printf("fibs %lu damaged %lu\n", fibs, fibs - right);
  return 0;
}

// What viewers are held against: `peer load CALLS`, so many loads of a shared word, and `peer scan|live ROWS CALLS WIDTH`, as many counts of
// the rows that viewers.rt.txt makes, by the same range; `live` looks at a flag of each row too. It writes the sum of what came, and to
// standard error the nanoseconds.
#include <stdatomic.h>
#include <stdint.h>
#include <stdio.h>
#include <stdlib.h>
#include <string.h>
#include <time.h>

enum { CELLS = 3 };

static _Atomic uint64_t word;

static uint64_t now(void) {
  struct timespec t;
  clock_gettime(CLOCK_MONOTONIC, &t);
  return (uint64_t)t.tv_sec * 1000000000 + (uint64_t)t.tv_nsec;
}

static uint64_t state = 88172645463325252u;

static uint64_t roll(uint64_t below) {
  state ^= state << 13;
  state ^= state >> 7;
  state ^= state << 17;
  uint64_t bits = state >> 34;
  return bits < below ? bits : bits % below;
}

__attribute__((noinline)) static uint64_t load(uint64_t calls) {
  uint64_t sum = 0;
  for (uint64_t i = 0; i < calls; i++) sum += atomic_load(&word);
  return sum;
}

__attribute__((noinline)) static uint64_t scan(const int64_t *rows, size_t many, int64_t low, int64_t high) {
  uint64_t found = 0;
  for (size_t i = 0; i < many; i++) {
    int64_t cell = rows[CELLS * i];
    if (low <= cell && cell < high) found++;
  }
  return found;
}

__attribute__((noinline)) static uint64_t scan_live(const int64_t *rows, const uint8_t *live, size_t many, int64_t low, int64_t high) {
  uint64_t found = 0;
  for (size_t i = 0; i < many; i++) {
    int64_t cell = rows[CELLS * i];
    if (live[i] && low <= cell && cell < high) found++;
  }
  return found;
}

int main(int many, char **words) {
  if (many < 3) return 1;
  uint64_t sum = 0, begun;
  if (strcmp(words[1], "load") == 0) {
    uint64_t calls = strtoull(words[2], 0, 10);
    begun = now();
    sum = load(calls);
  } else {
    if (many < 5) return 1;
    size_t rows = strtoull(words[2], 0, 10);
    uint64_t calls = strtoull(words[3], 0, 10), domain = 1 << 30, width = domain / 1000 * strtoull(words[4], 0, 10);
    int64_t *cells = malloc((rows ? rows : 1) * CELLS * sizeof *cells);
    uint8_t *live = malloc(rows ? rows : 1);
    if (!cells || !live) return 1;
    for (size_t i = 0; i < CELLS * rows; i++) cells[i] = (int64_t)roll(domain);
    memset(live, 1, rows);
    int64_t low = (int64_t)roll(domain - width), high = low + (int64_t)width;
    int with_flags = strcmp(words[1], "live") == 0;
    begun = now();
    for (uint64_t i = 0; i < calls; i++) {
      sum += with_flags ? scan_live(cells, live, rows, low, high) : scan(cells, rows, low, high);
      __asm__ volatile("" ::: "memory");
    }
  }
  uint64_t ended = now();
  printf("%llu\n", (unsigned long long)sum);
  fprintf(stderr, "%llu\n", (unsigned long long)(ended - begun));
  return 0;
}

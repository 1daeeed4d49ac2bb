// Runs the partitions by turns over the same random pairs, compares every byte with the first one's, and prints the
// least and the median of nanoseconds a pair: main PAIRS REPEATS PERCENT_LEFT PIECE_LENGTH
#define _GNU_SOURCE
#include <stdint.h>
#include <stdio.h>
#include <stdlib.h>
#include <string.h>
#include <time.h>

typedef size_t partition(int64_t *head, size_t n, int64_t *tail, size_t m, int64_t pivot);
partition two_cursors, blocks, blocks_listed, proved_split;
size_t proved_split_twins(int64_t *head, size_t n, int64_t *tail, size_t m, int64_t *twin_head, size_t o, int64_t *twin_tail, size_t p, int64_t pivot);

static const struct { const char *name; partition *part; } all[] = {
  {"two_cursors", two_cursors}, {"blocks", blocks}, {"blocks_listed", blocks_listed}, {"proved", proved_split},
};
enum { COUNT = sizeof all / sizeof *all, ALONE = COUNT, TOGETHER, ROWS };
static const char *const twins[] = {"one_after_another", "together"};

static double nanoseconds(void) {
  struct timespec t;
  clock_gettime(CLOCK_THREAD_CPUTIME_ID, &t);
  return t.tv_sec * 1e9 + t.tv_nsec;
}

static int by_value(const void *a, const void *b) {
  double x = *(const double *)a, y = *(const double *)b;
  return (x > y) - (x < y);
}

static uint64_t state = 88172645463325252ull;
static uint64_t next(void) {
  state ^= state << 13;
  state ^= state >> 7;
  state ^= state << 17;
  return state;
}

static size_t alone(int64_t *h, int64_t *t, int64_t *g, int64_t *u, size_t piece, int64_t pivot) {
  size_t left = proved_split(h, piece, t, piece, pivot);
  return proved_split(g, piece, u, piece, pivot) == left ? left : (size_t)-1;
}
static size_t together(int64_t *h, int64_t *t, int64_t *g, int64_t *u, size_t piece, int64_t pivot) {
  return proved_split_twins(h, piece, t, piece, g, piece, u, piece, pivot);
}

int main(int count, char **words) {
  if (count != 5) return 2;
  size_t n = strtoull(words[1], 0, 0), piece = strtoull(words[4], 0, 0);
  int repeats = atoi(words[2]), wrong = 0;
  double percent = atof(words[3]);
  if (piece > n) piece = n;
  n -= n % piece;
  size_t bytes = n * sizeof(int64_t);
  int64_t *head = malloc(bytes), *tail = malloc(bytes), *h = malloc(bytes), *t = malloc(bytes), *want_h = malloc(bytes), *want_t = malloc(bytes);
  for (size_t i = 0; i < n; i++) {
    head[i] = (int64_t)(next() >> 1) - (1ll << 62);
    tail[i] = (int64_t)i;
  }
  int64_t pivot = (int64_t)(percent / 100.0 * 9.223372036854775807e18 - 4.611686018427387904e18);
  double *times = calloc((size_t)(ROWS * repeats), sizeof *times);
  memcpy(want_h, head, bytes);
  memcpy(want_t, tail, bytes);
  size_t want = 0;
  for (size_t at = 0; at < n; at += piece) want += two_cursors(want_h + at, piece, want_t + at, piece, pivot);
  for (int r = 0; r < repeats; r++) {
    for (int q = 0; q < COUNT; q++) {
      memcpy(h, head, bytes);
      memcpy(t, tail, bytes);
      size_t left = 0;
      double before = nanoseconds();
      for (size_t at = 0; at < n; at += piece) left += all[q].part(h + at, piece, t + at, piece, pivot);
      times[q * repeats + r] = (nanoseconds() - before) / n;
      if (left != want || memcmp(h, want_h, bytes) || memcmp(t, want_t, bytes)) {
        printf("%s differs\n", all[q].name);
        wrong = 1;
      }
    }
  }
  // two pairs of lists with the same heads
  int64_t *g = malloc(bytes), *u = malloc(bytes);
  for (int r = 0; r < repeats; r++) {
    for (int q = ALONE; q <= TOGETHER; q++) {
      memcpy(h, head, bytes), memcpy(t, tail, bytes), memcpy(g, head, bytes), memcpy(u, tail, bytes);
      size_t left = 0;
      double before = nanoseconds();
      for (size_t at = 0; at < n; at += piece) left += (q == ALONE ? alone : together)(h + at, t + at, g + at, u + at, piece, pivot);
      times[q * repeats + r] = (nanoseconds() - before) / n;
      if (left != want || memcmp(h, want_h, bytes) || memcmp(t, want_t, bytes) || memcmp(g, want_h, bytes) || memcmp(u, want_t, bytes)) {
        printf("%s differs\n", twins[q - ALONE]);
        wrong = 1;
      }
    }
  }
  for (int q = 0; q < ROWS; q++) {
    qsort(times + q * repeats, repeats, sizeof *times, by_value);
    printf("%zu %zu %g %s %.4f %.4f\n", n, piece, percent, q < COUNT ? all[q].name : twins[q - ALONE], times[q * repeats], times[q * repeats + repeats / 2]);
  }
  return wrong;
}

/* Imports a stream of git-fast-import(1) in this process, in pieces of 64 KiB: import STREAM ROUNDS. Prints the seconds of the best round, by
 * the clock and of the processor, and the bytes that were stored. */
#define _POSIX_C_SOURCE 200809L
#include <gitpool.h>
#include <stdio.h>
#include <stdlib.h>
#include <time.h>

enum { PIECE = 65536 };

static const uint8_t TENANT[] = {'t'};

/* Seconds by the clock, and of the processor. */
struct times {
  double clock, processor;
};

static double read_clock(clockid_t which) {
  struct timespec at;
  clock_gettime(which, &at);
  return (double)at.tv_sec + (double)at.tv_nsec * 1e-9;
}

static struct times now(void) {
  struct times at = {read_clock(CLOCK_MONOTONIC), read_clock(CLOCK_PROCESS_CPUTIME_ID)};
  return at;
}

static double least(double one, double other) { return one < other ? one : other; }

/* The best of two rounds, of which the second has begun at this time. */
static struct times best_of(struct times best, struct times begin) {
  struct times end = now();
  struct times found = {least(best.clock, end.clock - begin.clock), least(best.processor, end.processor - begin.processor)};
  return found;
}

static void import(gitpool_service *service, gitpool_reply *reply, FILE *from) {
  static uint8_t piece[PIECE];
  size_t length;
  if (gitpool_open(service, TENANT, 1, reply) != 0) exit(1);
  while ((length = fread(piece, 1, PIECE, from)) != 0)
    if (gitpool_feed(service, TENANT, 1, piece, length, reply) != 0) exit(1);
  if (gitpool_end(service, TENANT, 1, reply) != 0) exit(1);
}

/* The best of an import into a new service and of those before it. */
static struct times once(const char *path, gitpool_totals *totals, struct times best) {
  gitpool_service service = GITPOOL_EMPTY;
  gitpool_reply reply = GITPOOL_EMPTY;
  FILE *from = fopen(path, "rb");
  if (from == NULL || gitpool_new(&service) != 0 || gitpool_reply_new(&reply) != 0) exit(1);
  struct times begin = now();
  import(&service, &reply, from);
  best = best_of(best, begin);
  gitpool_stored(&service, totals);
  gitpool_reply_free(&reply);
  gitpool_free(&service);
  fclose(from);
  return best;
}

int main(int count, char **words) {
  if (count != 3) return 2;
  gitpool_totals totals = {0, 0, 0};
  struct times best = {1e9, 1e9};
  for (int round = atoi(words[2]); round > 0; round--) best = once(words[1], &totals, best);
  printf("%.6f %.6f %llu\n", best.clock, best.processor, (unsigned long long)totals.bytes);
  return 0;
}

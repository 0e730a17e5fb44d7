/* Asks a service in this process for objects: cat POOL NAMES ROUNDS. Prints the seconds of the best round, by the clock and of the
 * processor, and the bytes of all replies. */
#define _POSIX_C_SOURCE 200809L
#include <gitpool.h>
#include <stdio.h>
#include <stdlib.h>
#include <string.h>
#include <time.h>

enum { DIGITS = 40, QUERY = 4 + DIGITS, LINE = DIGITS + 1, ROOM = 1 << 20 };

struct file {
  uint8_t *bytes;
  size_t length;
};

/* Seconds by the clock, and of the processor. */
struct times {
  double clock, processor;
};

static double read_clock(clockid_t which) {
  struct timespec at;
  clock_gettime(which, &at);
  return (double)at.tv_sec + (double)at.tv_nsec * 1e-9;
}

static struct times now(void) {
  struct times at = {read_clock(CLOCK_MONOTONIC), read_clock(CLOCK_PROCESS_CPUTIME_ID)};
  return at;
}

static double least(double one, double other) { return one < other ? one : other; }

/* The best of two rounds, of which the second has begun at this time. */
static struct times best_of(struct times best, struct times begin) {
  struct times end = now();
  struct times found = {least(best.clock, end.clock - begin.clock), least(best.processor, end.processor - begin.processor)};
  return found;
}

static struct file read_file(const char *path) {
  struct file found = {NULL, 0};
  FILE *from = fopen(path, "rb");
  if (from == NULL || fseek(from, 0, SEEK_END) != 0) exit(1);
  found.length = (size_t)ftell(from);
  found.bytes = malloc(found.length + 1);
  rewind(from);
  if (found.bytes == NULL || fread(found.bytes, 1, found.length, from) != found.length) exit(1);
  fclose(from);
  return found;
}

/* Asks for each name, and returns the bytes of all replies. */
static size_t ask_all(gitpool_service *service, gitpool_reply *reply, const struct file *names) {
  static uint8_t room[ROOM];
  uint8_t query[QUERY] = "cat ";
  size_t bytes = 0;
  for (size_t at = 0; at + LINE <= names->length; at += LINE) {
    memcpy(query + 4, names->bytes + at, DIGITS);
    if (gitpool_ask(service, (const uint8_t *)"t", 1, query, QUERY, reply) != 0) exit(1);
    bytes += gitpool_reply_read(reply, 0, room, ROOM);
  }
  return bytes;
}

int main(int count, char **words) {
  if (count != 4) return 2;
  gitpool_service service = GITPOOL_EMPTY;
  gitpool_reply reply = GITPOOL_EMPTY;
  struct file pool = read_file(words[1]), names = read_file(words[2]);
  if (gitpool_load(&service, pool.bytes, pool.length) != 0 || gitpool_reply_new(&reply) != 0) return 1;
  free(pool.bytes);
  struct times best = {1e9, 1e9};
  size_t bytes = 0;
  for (int round = atoi(words[3]); round > 0; round--) {
    struct times begin = now();
    bytes = ask_all(&service, &reply, &names);
    best = best_of(best, begin);
  }
  printf("%.6f %.6f %zu\n", best.clock, best.processor, bytes);
  gitpool_reply_free(&reply);
  gitpool_free(&service);
  free(names.bytes);
  return 0;
}

/* Reads objects of a repository by libgit2: cat_libgit2 REPOSITORY NAMES ROUNDS strict|loose. `loose` leaves out the check of each object's
 * name. Prints the seconds of the best round, by the clock and of the processor, and the bytes of all contents. Each round opens the
 * repository anew. */
#define _POSIX_C_SOURCE 200809L
#include <git2.h>
#include <stdio.h>
#include <stdlib.h>
#include <string.h>
#include <time.h>

enum { LINE = 41, MANY = 1 << 20 };

static char names[MANY][LINE];

/* Seconds by the clock, and of the processor. */
struct times {
  double clock, processor;
};

static double read_clock(clockid_t which) {
  struct timespec at;
  clock_gettime(which, &at);
  return (double)at.tv_sec + (double)at.tv_nsec * 1e-9;
}

static struct times now(void) {
  struct times at = {read_clock(CLOCK_MONOTONIC), read_clock(CLOCK_PROCESS_CPUTIME_ID)};
  return at;
}

static double least(double one, double other) { return one < other ? one : other; }

/* The best of two rounds, of which the second has begun at this time. */
static struct times best_of(struct times best, struct times begin) {
  struct times end = now();
  struct times found = {least(best.clock, end.clock - begin.clock), least(best.processor, end.processor - begin.processor)};
  return found;
}

static size_t read_names(const char *path) {
  size_t count = 0;
  FILE *from = fopen(path, "rb");
  if (from == NULL) exit(1);
  while (count < MANY && fscanf(from, "%40s", names[count]) == 1) count++;
  fclose(from);
  return count;
}

static size_t read_all(git_odb *odb, size_t count) {
  size_t bytes = 0;
  for (size_t it = 0; it < count; it++) {
    git_oid id;
    git_odb_object *object;
    if (git_oid_fromstr(&id, names[it]) != 0 || git_odb_read(&object, odb, &id) != 0) exit(1);
    bytes += git_odb_object_size(object);
    git_odb_object_free(object);
  }
  return bytes;
}

int main(int count, char **words) {
  if (count != 5) return 2;
  size_t many = read_names(words[2]), bytes = 0;
  struct times best = {1e9, 1e9};
  git_libgit2_init();
  git_libgit2_opts(GIT_OPT_ENABLE_STRICT_HASH_VERIFICATION, strcmp(words[4], "strict") == 0);
  for (int round = atoi(words[3]); round > 0; round--) {
    git_repository *repository;
    git_odb *odb;
    if (git_repository_open(&repository, words[1]) != 0 || git_repository_odb(&odb, repository) != 0) return 1;
    struct times begin = now();
    bytes = read_all(odb, many);
    best = best_of(best, begin);
    git_odb_free(odb);
    git_repository_free(repository);
  }
  printf("%.6f %.6f %zu\n", best.clock, best.processor, bytes);
  git_libgit2_shutdown();
  return 0;
}

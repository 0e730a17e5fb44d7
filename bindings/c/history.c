/* Imports a stream of git-fast-import(1) from standard input, and prints the refs and the log of HEAD: history [TENANT].
 *
 *     cc history.c $(pkg-config --cflags --libs gitpool) -o history
 */
#include <gitpool.h>
#include <stdio.h>
#include <stdlib.h>
#include <string.h>

#define PIECE 65536

/* A service, a reply, and the tenant that all calls name. */
struct site {
  gitpool_service service;
  gitpool_reply reply;
  const char *tenant;
};

static const uint8_t *name_of(const struct site *it) { return (const uint8_t *)it->tenant; }

/* Prints the bytes of the last reply. */
static void print_reply(struct site *it) {
  static uint8_t room[4096];
  size_t from = 0, length;
  while ((length = gitpool_reply_read(&it->reply, from, room, sizeof room)) != 0) {
    fwrite(room, 1, length, stdout);
    from += length;
  }
}

/* Feeds standard input to the tenant's stream. Returns the number of the fault, or 0. */
static uint32_t feed_all(struct site *it) {
  static uint8_t piece[PIECE];
  uint32_t fault = 0;
  size_t length;
  while (fault == 0 && (length = fread(piece, 1, sizeof piece, stdin)) != 0) {
    fault = gitpool_feed(&it->service, name_of(it), strlen(it->tenant), piece, length, &it->reply);
    print_reply(it);
  }
  return fault;
}

static uint32_t import(struct site *it) {
  uint32_t fault = gitpool_open(&it->service, name_of(it), strlen(it->tenant), &it->reply);
  if (fault != 0) return fault;
  fault = feed_all(it);
  uint32_t end = gitpool_end(&it->service, name_of(it), strlen(it->tenant), &it->reply);
  if (fault == 0) print_reply(it);
  return fault != 0 ? fault : end;
}

static uint32_t print_answer(struct site *it, const char *query) {
  uint32_t fault = gitpool_ask(&it->service, name_of(it), strlen(it->tenant), (const uint8_t *)query, strlen(query), &it->reply);
  print_reply(it);
  return fault;
}

static uint32_t print_history(struct site *it) {
  uint32_t fault = import(it);
  if (fault == 0) fault = print_answer(it, "refs");
  if (fault == 0) fault = print_answer(it, "log HEAD");
  return fault;
}

int main(int count, char **words) {
  struct site it = {GITPOOL_EMPTY, GITPOOL_EMPTY, count > 1 ? words[1] : "site"};
  uint32_t fault = gitpool_new(&it.service);
  if (fault == 0) fault = gitpool_reply_new(&it.reply);
  if (fault == 0) fault = print_history(&it);
  if (it.reply.at != NULL) gitpool_reply_free(&it.reply);
  if (it.service.at != NULL) gitpool_free(&it.service);
  if (fault != 0) fprintf(stderr, "history: fault %u\n", (unsigned)fault);
  return fault != 0 ? EXIT_FAILURE : EXIT_SUCCESS;
}

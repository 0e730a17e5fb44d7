/* Calls every function of include/gitpool.h, as C and as C++, and prints what is not as the header says. Status 1 where there is something. */
#include <gitpool.h>
#include <stdio.h>
#include <stdlib.h>
#include <string.h>

static int wrong;

#define CHECK(holds)                                         \
  do {                                                       \
    if (!(holds)) {                                          \
      printf("line %d does not hold: %s\n", __LINE__, #holds); \
      wrong++;                                               \
    }                                                        \
  } while (0)

static const uint8_t ALICE[] = {'a', 'l', 'i', 'c', 'e'}, BOB[] = {'b', 'o', 'b'}, BAD[] = {'a', '/', '/', 'b'};
static const char STREAM[] = "blob\nmark :1\ndata 6\nhello\nget-mark :1\nreset refs/heads/main\ncommit refs/heads/main\n"
                             "committer A <a@b> 0 +0000\ndata 2\nm\nM 644 :1 f\n";
static const char NAME[] = "ce013625030ba8dba906f756967f9e9ca394464a\n";

static const uint8_t *bytes_of(const char *text) { return (const uint8_t *)text; }

static bool replied(gitpool_reply *reply, const char *wanted) {
  uint8_t room[200] = {0};
  size_t length = strlen(wanted);
  return gitpool_reply_length(reply) == length && gitpool_reply_read(reply, 0, room, sizeof room) == length && memcmp(room, wanted, length) == 0;
}

/* Opens, feeds and ends a stream of alice. */
static void import(gitpool_service *service, gitpool_reply *reply) {
  CHECK(gitpool_open(service, ALICE, sizeof ALICE, reply) == 0);
  CHECK(gitpool_open(service, ALICE, sizeof ALICE, reply) == 31);
  CHECK(gitpool_reply_fault(reply) == 31);
  CHECK(gitpool_feed(service, ALICE, sizeof ALICE, bytes_of(STREAM), strlen(STREAM), reply) == 0);
  CHECK(replied(reply, NAME));
  CHECK(gitpool_end(service, ALICE, sizeof ALICE, reply) == 0);
  CHECK(gitpool_reply_length(reply) == 0);
  CHECK(gitpool_reply_items(reply) == 0);
  CHECK(gitpool_end(service, ALICE, sizeof ALICE, reply) == 30);
}

/* A stream that is refused, and one that is given up. */
static void refused(gitpool_service *service, gitpool_reply *reply) {
  const char *text = "progress x\nwhat\n";
  CHECK(gitpool_open(service, BOB, sizeof BOB, reply) == 0);
  CHECK(gitpool_feed(service, BOB, sizeof BOB, bytes_of(text), strlen(text), reply) == 2);
  CHECK(replied(reply, "progress x\n"));
  CHECK(gitpool_feed(service, BOB, sizeof BOB, BOB, 0, reply) == 2);
  CHECK(gitpool_end(service, BOB, sizeof BOB, reply) == 2);
  CHECK(gitpool_open(service, BOB, sizeof BOB, reply) == 0);
  CHECK(gitpool_abandon(service, BOB, sizeof BOB) == 0);
  CHECK(gitpool_abandon(service, BOB, sizeof BOB) == 30);
  CHECK(gitpool_open(service, BOB, sizeof BOB, reply) == 0);
  CHECK(gitpool_restart(service, reply) == 0);
  CHECK(gitpool_end(service, BOB, sizeof BOB, reply) == 30);
  CHECK(gitpool_open(service, BAD, sizeof BAD, reply) == 32);
  CHECK(gitpool_open(service, BOB, 0, reply) == 32);
}

static void asks(gitpool_service *service, gitpool_reply *reply) {
  const char *query = "rev-parse main:f";
  uint8_t room[4] = {0, 0, 0, 0};
  CHECK(gitpool_ask(service, ALICE, sizeof ALICE, bytes_of(query), strlen(query), reply) == 0);
  CHECK(replied(reply, NAME));
  CHECK(gitpool_reply_read(reply, 38, room, 2) == 2 && memcmp(room, "4a", 2) == 0 && room[2] == 0);
  CHECK(gitpool_reply_read(reply, 41, room, 4) == 0);
  CHECK(gitpool_reply_read(reply, 1000, room, 4) == 0);
  CHECK(gitpool_reply_read(reply, 0, room, 0) == 0);
  CHECK(gitpool_ask(service, BOB, sizeof BOB, bytes_of(query), strlen(query), reply) == 16);
  CHECK(gitpool_reply_fault(reply) == 16 && gitpool_reply_length(reply) == 0);
  CHECK(gitpool_ask(service, BOB, sizeof BOB, BOB, 0, reply) == 40 || gitpool_reply_fault(reply) == 41);
}

static void operates(gitpool_service *service) {
  gitpool_sizes sizes = GITPOOL_EMPTY;
  gitpool_tenant_sizes told = {0, 0, 0, 0, 0};
  gitpool_totals totals = {0, 0, 0};
  uint8_t room[GITPOOL_TENANT_NAME_LIMIT] = {0};
  CHECK(gitpool_copy(service, ALICE, sizeof ALICE, BOB, sizeof BOB) == 0);
  CHECK(gitpool_copy(service, ALICE, sizeof ALICE, BOB, sizeof BOB) == 33);
  CHECK(gitpool_compact(service, ALICE, sizeof ALICE) == 0);
  gitpool_stored(service, &totals);
  CHECK(totals.tenants == 2 && totals.contents == 3);
  CHECK(gitpool_list_sizes(service, &sizes) == 0);
  CHECK(gitpool_sizes_count(&sizes) == 2);
  CHECK(gitpool_sizes_at(&sizes, 1, &told, room, sizeof room) && told.tenant_length == 3 && memcmp(room, BOB, 3) == 0);
  CHECK(told.objects == 3 && told.refs == 1 && told.own_bytes == 0 && told.bytes == totals.bytes);
  CHECK(!gitpool_sizes_at(&sizes, 2, &told, room, sizeof room));
  gitpool_sizes_free(&sizes);
  CHECK(sizes.at == NULL);
  CHECK(gitpool_remove(service, BOB, sizeof BOB) == 0);
  CHECK(gitpool_remove(service, BAD, sizeof BAD) == 32);
}

static void saves(gitpool_service *service, gitpool_reply *reply) {
  static uint8_t file[10000];
  gitpool_service again = GITPOOL_EMPTY;
  CHECK(gitpool_save(service, reply) == 0);
  size_t length = gitpool_reply_read(reply, 0, file, sizeof file);
  CHECK(length == gitpool_reply_length(reply));
  CHECK(gitpool_load(&again, file, length - 1) == 62);
  CHECK(again.at == NULL);
  CHECK(gitpool_load(&again, file, 0) == 62);
  CHECK(gitpool_load(&again, file, length) == 0);
  asks(&again, reply);
  gitpool_free(&again);
  CHECK(again.at == NULL);
}

/* The bytes of a file give the same answers where they are lent as where they are copied, and so does each part from its begin. */
static void lends(gitpool_service *service, gitpool_reply *reply) {
  static uint8_t file[10000], again[10000];
  gitpool_service lent = GITPOOL_EMPTY, copied = GITPOOL_EMPTY;
  CHECK(gitpool_save(service, reply) == 0);
  size_t length = gitpool_reply_read(reply, 0, file, sizeof file);
  for (size_t cut = 0; cut < length; cut++) {
    CHECK(gitpool_load_lent(&lent, file, cut) == gitpool_load(&copied, file, cut));
    CHECK(lent.at == NULL && copied.at == NULL);
  }
  CHECK(gitpool_load_lent(&lent, file, sizeof file) == 69);
  CHECK(gitpool_load_lent(&lent, file, length) == 0);
  asks(&lent, reply);
  refused(&lent, reply);
  operates(&lent);
  CHECK(gitpool_save(&lent, reply) == 0);
  CHECK(gitpool_reply_read(reply, 0, again, sizeof again) == length && memcmp(again, file, length) == 0);
  gitpool_free(&lent);
  CHECK(lent.at == NULL);
}

int main(void) {
  gitpool_service service = GITPOOL_EMPTY;
  gitpool_reply reply = GITPOOL_EMPTY;
  CHECK(gitpool_new(&service) == 0);
  CHECK(gitpool_reply_new(&reply) == 0);
  CHECK(gitpool_reply_fault(&reply) == 0 && gitpool_reply_length(&reply) == 0);
  import(&service, &reply);
  refused(&service, &reply);
  asks(&service, &reply);
  operates(&service);
  saves(&service, &reply);
  lends(&service, &reply);
  gitpool_free(&service);
  gitpool_reply_free(&reply);
  CHECK(service.at == NULL && reply.at == NULL);
  return wrong == 0 ? EXIT_SUCCESS : EXIT_FAILURE;
}

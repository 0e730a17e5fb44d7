/* Takes frames of docs/FORMATS.md from standard input, as `gitpool host` does, by the library in this process, and writes their answers. A
 * frame of kind 0 begins a new service, and has no answer. A Save checks that a service of what it saved saves the same. The program takes no
 * memory of its own, so that each growth is the library's. Status: 0; 5 where there is no memory; 1 for what is no frame. */
#include <gitpool.h>
#include <stdio.h>
#include <stdlib.h>
#include <string.h>

enum { BEGIN, OPEN, FEED, END, ASK, RESTART, SAVE = 16, ABANDON, REMOVE, COMPACT, COPY, SIZES };
enum { OK, FAULT, MEMORY };
enum { NO_MEMORY = 90, OTHER_FILE = 999, LONGEST_BODY = 16777216, ROOM = 65536, MANY = 16 };

/* A name or a body. */
struct part {
  uint8_t *at;
  size_t length;
};

struct frame {
  int kind;
  struct part tenant, body;
};

static gitpool_service service = GITPOOL_EMPTY;
static gitpool_reply reply = GITPOOL_EMPTY;
static uint8_t names[65536], bodies[LONGEST_BODY], room[ROOM], saved[LONGEST_BODY];

/* Tenants whose stream is dead since it found no memory. The library answers 90 in both cases, and a frame tells them apart. */
static struct {
  uint8_t name[GITPOOL_TENANT_NAME_LIMIT];
  size_t length;
} dead[MANY];

static int place_of(struct part tenant) {
  for (int it = 0; it < MANY; it++)
    if (dead[it].length == tenant.length && memcmp(dead[it].name, tenant.at, tenant.length) == 0) return it;
  return -1;
}

static void set_dead(struct part tenant) {
  int it = 0;
  while (it < MANY - 1 && dead[it].length != 0) it++;
  memcpy(dead[it].name, tenant.at, tenant.length);
  dead[it].length = tenant.length;
}

static void give_up(void) {
  fputs("gitpool: fault 90\n", stderr);
  fflush(stdout);
  exit(5);
}

static uint64_t number_in(int bytes) {
  uint64_t found = 0;
  for (int it = 0; it < bytes; it++) found = found << 8 | (uint64_t)(getchar() & 255);
  return found;
}

static struct part read_part(uint8_t *at, size_t length) {
  if (fread(at, 1, length, stdin) != length) exit(1);
  struct part found = {at, length};
  return found;
}

static bool read_frame(struct frame *it) {
  it->kind = getchar();
  if (it->kind == EOF) return false;
  it->tenant = read_part(names, number_in(2));
  uint64_t length = number_in(4);
  if (length > LONGEST_BODY) exit(1);
  it->body = read_part(bodies, length);
  return true;
}

static void write_number(uint64_t number, int bytes) {
  for (int it = bytes - 1; it >= 0; it--) putchar((int)(number >> 8 * it & 255));
}

static void write_head(int status, uint64_t value, uint64_t length) {
  write_number((uint64_t)status, 1);
  write_number(value, 8);
  write_number(length, 8);
}

static void write_reply(void) {
  size_t from = 0, length;
  while ((length = gitpool_reply_read(&reply, from, room, ROOM)) != 0) {
    fwrite(room, 1, length, stdout);
    from += length;
  }
}

/* The answer to a step of the tenant. */
static void answer(const struct frame *it, uint32_t fault) {
  int place = it->kind == FEED || it->kind == END ? place_of(it->tenant) : -1;
  if (fault != gitpool_reply_fault(&reply)) exit(1);
  if (fault == NO_MEMORY && place < 0) {
    write_head(MEMORY, gitpool_reply_items(&reply), gitpool_reply_length(&reply));
    if (it->kind == FEED) set_dead(it->tenant);
  } else {
    write_head(fault != 0 ? FAULT : OK, fault, gitpool_reply_length(&reply));
  }
  if (it->kind == END && place >= 0) dead[place].length = 0;
  write_reply();
}

/* The answer to a request of the operator. */
static void answer_without_reply(uint32_t fault) {
  if (fault == NO_MEMORY) {
    write_head(MEMORY, 0, 0);
  } else {
    write_head(fault != 0 ? FAULT : OK, fault, 0);
  }
}

static void begin(void) {
  if (service.at != NULL) gitpool_free(&service);
  if (gitpool_new(&service) != 0) give_up();
  memset(dead, 0, sizeof dead);
}

/* Saves, and saves once more what a service has that loaded this: the number of the fault, or OTHER_FILE where the two differ. */
static uint32_t save(void) {
  gitpool_service again = GITPOOL_EMPTY;
  uint32_t fault = gitpool_save(&service, &reply);
  if (fault != 0) return fault;
  size_t length = gitpool_reply_read(&reply, 0, saved, sizeof saved);
  fault = gitpool_load(&again, saved, length);
  if (fault != 0) return fault;
  fault = gitpool_save(&again, &reply);
  gitpool_free(&again);
  if (fault != 0) return fault;
  bool is_same = gitpool_reply_length(&reply) == length && gitpool_reply_read(&reply, 0, bodies, sizeof bodies) == length &&
                 memcmp(saved, bodies, length) == 0;
  return is_same ? 0 : OTHER_FILE;
}

static size_t write_line(char *at, size_t length, gitpool_sizes *sizes, size_t place) {
  gitpool_tenant_sizes told = {0, 0, 0, 0, 0};
  uint8_t name[GITPOOL_TENANT_NAME_LIMIT] = {0};
  if (!gitpool_sizes_at(sizes, place, &told, name, sizeof name)) exit(1);
  return (size_t)snprintf(at, length, "%.*s objects %llu bytes %llu own %llu refs %llu\n", (int)told.tenant_length, (const char *)name,
                          (unsigned long long)told.objects, (unsigned long long)told.bytes, (unsigned long long)told.own_bytes,
                          (unsigned long long)told.refs);
}

static void answer_sizes(void) {
  gitpool_sizes sizes = GITPOOL_EMPTY;
  size_t length = 0;
  uint32_t fault = gitpool_list_sizes(&service, &sizes);
  if (fault != 0) {
    answer_without_reply(fault);
    return;
  }
  for (size_t it = 0; it < gitpool_sizes_count(&sizes); it++) length += write_line((char *)saved + length, sizeof saved - length, &sizes, it);
  gitpool_sizes_free(&sizes);
  write_head(OK, 0, length);
  fwrite(saved, 1, length, stdout);
}

static void take_step(const struct frame *it) {
  struct part tenant = it->tenant, body = it->body;
  switch (it->kind) {
    case OPEN: answer(it, gitpool_open(&service, tenant.at, tenant.length, &reply)); break;
    case FEED: answer(it, gitpool_feed(&service, tenant.at, tenant.length, body.at, body.length, &reply)); break;
    case END: answer(it, gitpool_end(&service, tenant.at, tenant.length, &reply)); break;
    case ASK: answer(it, gitpool_ask(&service, tenant.at, tenant.length, body.at, body.length, &reply)); break;
    case RESTART:
      memset(dead, 0, sizeof dead);
      answer(it, gitpool_restart(&service, &reply));
      break;
    default: exit(1);
  }
}

static void take(const struct frame *it) {
  struct part tenant = it->tenant, body = it->body;
  switch (it->kind) {
    case BEGIN: begin(); break;
    case SAVE: answer_without_reply(save()); break;
    case ABANDON: answer_without_reply(gitpool_abandon(&service, tenant.at, tenant.length)); break;
    case REMOVE: answer_without_reply(gitpool_remove(&service, tenant.at, tenant.length)); break;
    case COMPACT: answer_without_reply(gitpool_compact(&service, tenant.at, tenant.length)); break;
    case COPY: answer_without_reply(gitpool_copy(&service, tenant.at, tenant.length, body.at, body.length)); break;
    case SIZES: answer_sizes(); break;
    default: take_step(it);
  }
}

int main(void) {
  struct frame it;
  if (gitpool_reply_new(&reply) != 0) give_up();
  begin();
  while (read_frame(&it)) take(&it);
  gitpool_free(&service);
  gitpool_reply_free(&reply);
  return fflush(stdout) == 0 ? EXIT_SUCCESS : EXIT_FAILURE;
}

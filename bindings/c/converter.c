/* A converter: reads a list of changes from standard input, writes a stream of git-fast-import(1) in pieces, and tells where it is refused.
 *
 *     cc converter.c $(pkg-config --cflags --libs gitpool) -o converter
 *     printf '0\tA <a@b>\tREADME\thello\tfirst\n' | ./converter
 *
 * A change is a line: the time in seconds since 1970, the author, a path, its new contents, and a message, with tabs between them. Each
 * change becomes a commit, and each commit is a piece of the stream. A refusal is told with its number, and with the last byte of the shortest
 * prefix of the stream that is refused, and the line of that byte.
 */
#define _DEFAULT_SOURCE
#include <gitpool.h>
#include <stdio.h>
#include <stdlib.h>
#include <string.h>

static const uint8_t TENANT[] = {'s', 'i', 't', 'e'};

struct text {
  char *bytes;
  size_t length;
};

struct place {
  size_t byte, line;
};

static uint32_t feed(gitpool_service *service, const char *bytes, size_t length, gitpool_reply *reply) {
  return gitpool_feed(service, TENANT, sizeof TENANT, (const uint8_t *)bytes, length, reply);
}

/* The place of a refusal. The stream was begun over an empty repository, so a second service takes it once more: all that was accepted in
 * one piece, and then byte by byte, up to the refusal. If only the end is refused, that is the place after the last byte. */
static struct place place_of(const struct text *stream, size_t accepted) {
  gitpool_service service = GITPOOL_EMPTY;
  gitpool_reply reply = GITPOOL_EMPTY;
  struct place place = {0, 0};
  if (gitpool_new(&service) == 0 && gitpool_reply_new(&reply) == 0 && gitpool_open(&service, TENANT, sizeof TENANT, &reply) == 0 &&
      feed(&service, stream->bytes, accepted, &reply) == 0) {
    size_t at = accepted;
    while (at < stream->length && feed(&service, stream->bytes + at, 1, &reply) == 0) at++;
    place.byte = at + 1;
    place.line = 1;
    for (size_t it = 0; it < at; it++) place.line += stream->bytes[it] == '\n';
  }
  if (reply.at != NULL) gitpool_reply_free(&reply);
  if (service.at != NULL) gitpool_free(&service);
  return place;
}

/* Writes the commit of a change. Returns false if the line is no change. */
static int write_commit(FILE *to, char *line) {
  char *cells[5];
  for (int it = 0; it < 5; it++) {
    cells[it] = strsep(&line, it < 4 ? "\t" : "\n");
    if (cells[it] == NULL) return 0;
  }
  fprintf(to, "commit refs/heads/main\ncommitter %s %s +0000\ndata %zu\n%s\n", cells[1], cells[0], strlen(cells[4]), cells[4]);
  fprintf(to, "M 644 inline %s\ndata %zu\n%s\n", cells[2], strlen(cells[3]), cells[3]);
  return fflush(to) == 0;
}

/* Feeds a commit for each line of the input. Returns the number of the fault, or 0; `accepted` are the bytes of whole pieces before it. */
static uint32_t convert(gitpool_service *service, gitpool_reply *reply, FILE *to, struct text *stream, size_t *accepted) {
  char *line = NULL;
  size_t room = 0;
  uint32_t fault = 0;
  while (fault == 0 && getline(&line, &room, stdin) > 0 && write_commit(to, line)) {
    fault = feed(service, stream->bytes + *accepted, stream->length - *accepted, reply);
    if (fault == 0) *accepted = stream->length;
  }
  free(line);
  uint32_t end = gitpool_end(service, TENANT, sizeof TENANT, reply);
  return fault != 0 ? fault : end;
}

static int tell(gitpool_service *service, gitpool_reply *reply) {
  gitpool_totals totals = {0, 0, 0};
  struct text stream = {NULL, 0};
  size_t accepted = 0;
  FILE *to = open_memstream(&stream.bytes, &stream.length);
  if (to == NULL) return EXIT_FAILURE;
  uint32_t fault = gitpool_open(service, TENANT, sizeof TENANT, reply);
  if (fault == 0) fault = convert(service, reply, to, &stream, &accepted);
  fclose(to);
  gitpool_stored(service, &totals);
  if (fault != 0) {
    struct place place = place_of(&stream, accepted);
    printf("fault %u at byte %zu, line %zu\n", (unsigned)fault, place.byte, place.line);
  } else {
    printf("%zu bytes of stream, %llu contents\n", stream.length, (unsigned long long)totals.contents);
  }
  free(stream.bytes);
  return fault != 0 ? EXIT_FAILURE : EXIT_SUCCESS;
}

int main(void) {
  gitpool_service service = GITPOOL_EMPTY;
  gitpool_reply reply = GITPOOL_EMPTY;
  int status = EXIT_FAILURE;
  if (gitpool_new(&service) == 0 && gitpool_reply_new(&reply) == 0) status = tell(&service, &reply);
  if (reply.at != NULL) gitpool_reply_free(&reply);
  if (service.at != NULL) gitpool_free(&service);
  return status;
}

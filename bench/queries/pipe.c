/* Asks a process through its pipes about objects: pipe QUERY NAMES AHEAD PROGRAM [WORD..]. NAMES has an object name a line. At most
 * AHEAD questions are sent before their answers are read: 1 is one at a time. The query `cat` or `abbrev` goes in frames to `gitpool
 * serve`, for the tenant t; with `git` the names go to `git cat-file --batch`. Prints the seconds from the first question to the last
 * answer, and the bytes of all answers. */
#define _POSIX_C_SOURCE 200809L
#include <stdint.h>
#include <stdio.h>
#include <stdlib.h>
#include <string.h>
#include <sys/wait.h>
#include <time.h>
#include <unistd.h>

enum { DIGITS = 40, LINE = DIGITS + 1, LONGEST = 80, ANSWER = 17, ASK = 4, ROOM = 1 << 20 };

struct file {
  char *bytes;
  size_t length;
};

/* A process with its pipes, and what was read of its output beyond the last answer. */
struct peer {
  pid_t process;
  int given, told;
  char *read;
  size_t begin, end;
};

static void need(int is, const char *what) {
  if (is) return;
  fprintf(stderr, "pipe: %s\n", what);
  exit(1);
}

static struct file read_file(const char *path) {
  struct file found = {NULL, 0};
  FILE *from = fopen(path, "rb");
  need(from != NULL && fseek(from, 0, SEEK_END) == 0, path);
  found.length = (size_t)ftell(from);
  found.bytes = malloc(found.length + 1);
  rewind(from);
  need(found.bytes != NULL && fread(found.bytes, 1, found.length, from) == found.length, path);
  fclose(from);
  return found;
}

static struct peer start(char **words) {
  int in[2], out[2];
  need(pipe(in) == 0 && pipe(out) == 0, "no pipe");
  struct peer peer = {fork(), in[1], out[0], malloc(ROOM), 0, 0};
  need(peer.process >= 0 && peer.read != NULL, "no process");
  if (peer.process == 0) {
    dup2(in[0], 0);
    dup2(out[1], 1);
    close(in[1]);
    close(out[0]);
    execvp(words[0], words);
    _exit(127);
  }
  close(in[0]);
  close(out[1]);
  return peer;
}

static void send_all(const struct peer *peer, const char *bytes, size_t length) {
  while (length > 0) {
    ssize_t sent = write(peer->given, bytes, length);
    need(sent > 0, "a question is not taken");
    bytes += sent;
    length -= (size_t)sent;
  }
}

/* Takes so many bytes of the output, and returns them where they were read. */
static const char *take(struct peer *peer, size_t length) {
  need(length <= ROOM, "an answer is too long");
  if (peer->begin + length > ROOM) {
    memmove(peer->read, peer->read + peer->begin, peer->end - peer->begin);
    peer->end -= peer->begin;
    peer->begin = 0;
  }
  while (peer->end - peer->begin < length) {
    ssize_t read_now = read(peer->told, peer->read + peer->end, ROOM - peer->end);
    need(read_now > 0, "an answer is missing");
    peer->end += (size_t)read_now;
  }
  peer->begin += length;
  return peer->read + peer->begin - length;
}

static int is_git(const char *query) { return strcmp(query, "git") == 0; }

static uint64_t number(const char *bytes) {
  uint64_t value = 0;
  for (int at = 0; at < 8; at++) value = value << 8 | (uint8_t)bytes[at];
  return value;
}

/* Writes a question, and returns its length. */
static size_t ask(char *to, const char *query, const char *name) {
  if (is_git(query)) return (size_t)sprintf(to, "%.*s\n", DIGITS, name);
  char head[] = {ASK, 0, 1, 't', 0, 0, 0, (char)(strlen(query) + 1 + DIGITS)};
  memcpy(to, head, sizeof head);
  return sizeof head + (size_t)sprintf(to + sizeof head, "%s %.*s", query, DIGITS, name);
}

/* Reads an answer in a frame, and returns its length. */
static size_t framed(struct peer *peer) {
  const char *head = take(peer, ANSWER);
  size_t length = (size_t)number(head + 9);
  need(head[0] == 0, "a question is refused");
  take(peer, length);
  return length;
}

/* Reads an answer of git, a line that ends with the length of the contents, these and a line end, and returns its length. */
static size_t lined(struct peer *peer) {
  char head[128];
  size_t at = 0;
  do {
    need(at < sizeof head - 1, "a line is too long");
    head[at] = *take(peer, 1);
  } while (head[at++] != '\n');
  head[at] = 0;
  const char *size = strrchr(head, ' ');
  need(size != NULL, "a line has no length");
  size_t length = strtoull(size, NULL, 10);
  take(peer, length + 1);
  return at + length + 1;
}

/* Asks about all names, and returns the bytes of all answers. */
static size_t ask_all(struct peer *peer, const char *query, const struct file *names, size_t ahead) {
  size_t count = names->length / LINE, sent = 0, bytes = 0;
  char *questions = malloc(ahead * LONGEST);
  need(questions != NULL, "no memory");
  for (size_t told = 0; told < count; told++) {
    size_t length = 0;
    if (sent - told <= ahead / 2)
      for (; sent < count && sent - told < ahead; sent++) length += ask(questions + length, query, names->bytes + sent * LINE);
    send_all(peer, questions, length);
    bytes += is_git(query) ? lined(peer) : framed(peer);
  }
  free(questions);
  return bytes;
}

static double seconds(void) {
  struct timespec at;
  clock_gettime(CLOCK_MONOTONIC, &at);
  return (double)at.tv_sec + (double)at.tv_nsec * 1e-9;
}

int main(int count, char **words) {
  if (count < 5 || strlen(words[1]) > LONGEST / 4) return 2;
  int status = 0;
  struct file names = read_file(words[2]);
  struct peer peer = start(words + 4);
  struct file first = {names.bytes, LINE};
  ask_all(&peer, words[1], &first, 1); /* it has loaded its objects once this is answered */
  double begin = seconds();
  size_t bytes = ask_all(&peer, words[1], &names, strtoull(words[3], NULL, 10));
  printf("%.6f %zu\n", seconds() - begin, bytes);
  close(peer.given);
  need(waitpid(peer.process, &status, 0) == peer.process && status == 0, "the process failed");
  return 0;
}

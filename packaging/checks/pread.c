// Tries packaging/pread.c, which is compiled into this program: pread FOLDER. Its sizes are small here, so that random reads reach each
// case, and its system calls can be made to fail. Each test is a process of its own; the last line is `N passed, M failed`.
#define _GNU_SOURCE
#include <errno.h>
#include <fcntl.h>
#include <stdarg.h>
#include <stdio.h>
#include <sys/mman.h>
#include <sys/resource.h>
#include <sys/wait.h>
#include <unistd.h>

// What a call of the device gets: that of the system, unless the test lets it fail.
static int bad_mmap, bad_mremap;
static long bad_from = -1, most = -1;
static size_t count_maps;

static void *try_mmap(void *at, size_t size, int protection, int flags, int file, off_t offset) {
  if (bad_mmap && file >= 0) return errno = ENODEV, MAP_FAILED;
  return mmap(at, size, protection, flags, file, offset);
}

static void *try_mremap(void *old, size_t size, size_t to_size, int flags, void *place) {
  if (bad_mremap) return munmap(place, size), errno = ENOMEM, MAP_FAILED;
  count_maps++;
  return mremap(old, size, to_size, flags, place);
}

static long try_read(long number, int file, void *to, size_t count, off_t at);

#define LARGE 8192
#define RANGES 512
#define mmap try_mmap
#define mremap try_mremap
#define syscall try_read
#define pread device_pread
#define pread64 device_pread64
#include "../pread.c"
#undef mmap
#undef mremap
#undef syscall
#undef pread
#undef pread64

// A disk whose bytes from `bad_from` on cannot be read, and that gives at most `most` bytes at once.
static long try_read(long number, int file, void *to, size_t count, off_t at) {
  if (most >= 0 && count > (size_t)most) count = (size_t)most;
  if (bad_from >= 0 && at >= bad_from) return errno = EIO, -1;
  if (bad_from >= 0 && (long)(at + (off_t)count) > bad_from) count = (size_t)(bad_from - at);
  return syscall(number, file, to, count, at);
}

#define SIZE (8 * 4096 + 123)
#define ROOM (14 * 4096)
static char path[4096], other[4096];
static unsigned char said[ROOM], *given, *wanted;
static unsigned long state = 1;

static void need(int holds, const char *what) {
  if (holds) return;
  printf("  %s (errno %d)\n", what, errno);
  exit(1);
}
#define NEED(it) need(it, #it)

static unsigned long drawn(unsigned long below) {
  state = state * 6364136223846793005ul + 1442695040888963407ul;
  return (state >> 33) % below;
}

// A file of random bytes.
static int made(const char *name, size_t size) {
  int file = open(name, O_RDWR | O_CREAT | O_TRUNC, 0600);
  NEED(file >= 0 && size <= ROOM);
  for (size_t at = 0; at < size; at++) said[at] = (unsigned char)drawn(256);
  NEED(write(file, said, size) == (ssize_t)size);
  return file;
}

static unsigned char *pages(size_t size) {
  void *at = mmap(NULL, size, PROT_READ | PROT_WRITE, MAP_PRIVATE | MAP_ANONYMOUS, -1, 0);
  NEED(at != MAP_FAILED);
  return at;
}

// Gives the device's buffer new pages, where it has pages of files.
static void renew(void) {
  if (!count_ranges) return;
  NEED(mmap(given, ROOM, PROT_READ | PROT_WRITE, MAP_PRIVATE | MAP_ANONYMOUS | MAP_FIXED, -1, 0) == given);
  if (count_ranges < RANGES) count_ranges = 0;
}

// One read by the device and by the system, into buffers that are alike: they answer and leave the same. One in ten is into what the one
// before has left.
static void same_read(int file, size_t shift, size_t count, off_t at) {
  if (drawn(10)) renew();
  memset(given, 0xa5, ROOM);
  memset(wanted, 0xa5, ROOM);
  errno = 0;
  ssize_t want = pread(file, wanted + shift, count, at);
  int error = errno;
  errno = 0;
  ssize_t got = device_pread(file, given + shift, count, at);
  if (got != want || (want < 0 && errno != error) || memcmp(given, wanted, ROOM)) {
    printf("  %zu bytes at %ld, %zu behind a page: %zd and %zd, errors %d and %d\n", count, (long)at, shift, got, want, errno, error);
    exit(1);
  }
}

// Half of the reads lie alike in pages, and some are at the end of the file, beyond it and before it.
static void random_reads(int file, int times) {
  while (times--) {
    size_t shift = drawn(3) ? drawn(2 * 4096) : 0, count = drawn(8) ? drawn(ROOM - 3 * 4096) : drawn(3 * 4096);
    off_t at = (off_t)drawn(SIZE + 3 * 4096);
    if (drawn(2)) at = at / 4096 * 4096 + (off_t)(shift % 4096);
    if (!drawn(50)) at = -at;
    same_read(file, shift, count, at);
  }
}

static void equal_to_pread(void) {
  random_reads(made(path, SIZE), 100000);
  printf("  %zu of 100,000 reads were mapped\n", count_maps);
  NEED(count_maps > 20000);
}

static void holes_and_sizes(void) {
  int file = made(path, 5);
  NEED(!ftruncate(file, SIZE));
  random_reads(file, 2000);
  for (size_t size = 0; size < 5 * 4096; size += 1023) {
    renew();
    NEED(!ftruncate(file, (off_t)size));
    for (size_t shift = 0; shift < 3; shift++) same_read(file, shift, 3 * 4096, (off_t)shift);
  }
}

static void no_regular_file(void) {
  int ends[2], writes = made(path, SIZE);
  const char *names[] = {"/", "/dev/zero", "/dev/null", "/proc/self/cmdline", "/proc/self/mem", "/sys/kernel/notes"};
  NEED(!pipe(ends));
  for (size_t at = 0; at < sizeof names / sizeof *names; at++) {
    int file = open(names[at], O_RDONLY);
    for (off_t from = 0; file >= 0 && from < 3; from++) same_read(file, (size_t)from, 8 * 4096, from);
  }
  writes = open(path, O_WRONLY);
  int files[] = {writes, ends[0], ends[1], -1, 999, open(path, O_PATH)};
  for (size_t at = 0; at < sizeof files / sizeof *files; at++) same_read(files[at], 0, 8 * 4096, 0);
  same_read(open(path, O_RDONLY), 0, 0, 0);
  same_read(open(path, O_RDONLY), 0, (size_t)-1, 0);
}

static void no_mmap(void) {
  bad_mmap = 1;
  random_reads(made(path, SIZE), 2000);
  NEED(count_maps == 0);
}

// The kernel has taken the buffer's pages away when it refuses the others.
static void no_mremap(void) {
  bad_mremap = 1;
  random_reads(made(path, SIZE), 2000);
}

static void no_more_mappings(void) {
  int file = made(path, SIZE), protection = PROT_READ;
  while (mmap(NULL, 4096, protection, MAP_PRIVATE | MAP_ANONYMOUS, -1, 0) != MAP_FAILED) protection ^= PROT_READ | PROT_WRITE;
  random_reads(file, 2000);
  NEED(count_maps == 0);
}

static void no_more_ranges(void) {
  int file = made(path, SIZE);
  for (size_t at = 0; at < RANGES; at++) note(at * 4096, at * 4096 + 4096);
  random_reads(file, 2000);
  NEED(count_maps == 0 && count_ranges == RANGES);
}

static void short_reads(void) {
  int file = made(path, SIZE);
  most = 100;
  NEED(device_pread(file, given, 5 * 4096, 1) == 100);
  NEED(device_pread(file, given + 1, 5 * 4096, 1) == 100);
  NEED(device_pread(file, given, 5 * 4096 + 123, 0) == 5 * 4096 + 100);
  NEED(device_pread(file, given + 4095, 5 * 4096 + 1, 4095) == 1 + 5 * 4096);
  NEED(!memcmp(given + 4095, said + 4095, 1 + 5 * 4096));
}

static void bad_sectors(void) {
  int file = made(path, SIZE);
  bad_from = 100;
  NEED(device_pread(file, given + 100, 5 * 4096, 100) == -1 && errno == EIO);
  NEED(device_pread(file, given + 99, 5 * 4096, 99) == 1);
  bad_from = 5 * 4096;
  NEED(device_pread(file, given, 5 * 4096 + 123, 0) == 5 * 4096 && !memcmp(given, said, 5 * 4096));
  bad_mmap = 1;
  NEED(device_pread(file, given, 6 * 4096, 0) == 5 * 4096 && !memcmp(given, said, 5 * 4096));
  NEED(device_pread(file, given, 6 * 4096, 5 * 4096) == -1 && errno == EIO);
}

static void writes_are_copied(void) {
  int file = made(path, SIZE);
  NEED(device_pread(file, given, SIZE, 0) == SIZE);
  for (size_t at = 0; at < SIZE; at += 3000) given[at] = said[at] = (unsigned char)~said[at];
  NEED(!memcmp(given, said, SIZE));
  NEED(pread(file, wanted, SIZE, 0) == SIZE && memcmp(wanted, said, SIZE));
}

// Ends by a signal, in a process of its own.
static void ends_by(int number, void (*act)(void)) {
  int status = 0;
  pid_t pid = fork();
  if (!pid) {
    act();
    _exit(0);
  }
  NEED(pid > 0 && waitpid(pid, &status, 0) == pid);
  NEED(WIFSIGNALED(status) ? WTERMSIG(status) == number : number == 0 && !status);
}

static void read_all(void) {
  for (size_t at = 0; at < SIZE; at++) NEED(given[at] == said[at]);
}

static volatile int *volatile nowhere = (volatile int *)8;

static void other_faults(void) { *nowhere = 1; }
static void write_into_code(void) { *(volatile char *)(uintptr_t)device_pread = 1; }

static void others_fault(void) {
  NEED(device_pread(made(path, SIZE), given, SIZE, 0) == SIZE);
  ends_by(SIGSEGV, other_faults);
  ends_by(SIGSEGV, write_into_code);
}

static void takes_no_more_data(void) {
  struct rlimit none = {0, 0};
  NEED(!setrlimit(RLIMIT_DATA, &none));
  read_all();
  given[5 * 4096] = 1;
}

static void data_is_counted(void) {
  NEED(device_pread(made(path, SIZE), given, SIZE, 0) == SIZE);
  ends_by(SIGSEGV, takes_no_more_data);
}

static void cut(void) {
  int file = made(path, SIZE);
  NEED(device_pread(file, given, SIZE, 0) == SIZE);
  ends_by(0, read_all);
  NEED(!ftruncate(file, 6 * 4096));
  ends_by(SIGBUS, read_all);
  NEED(!memcmp(given, said, 6 * 4096));
  // The rest of the page in which a cut is has zeros.
  NEED(!ftruncate(file, 5 * 4096 + 1) && !memcmp(given, said, 5 * 4096 + 1));
  for (size_t at = 5 * 4096 + 1; at < 6 * 4096; at++) NEED(given[at] == 0);
}

static void replaced(void) {
  int file = made(other, SIZE);
  close(file);
  file = made(path, SIZE);
  NEED(device_pread(file, given, SIZE, 0) == SIZE && !close(file) && !rename(other, path));
  read_all();
  NEED(!unlink(path));
  read_all();
}

// What was written into is the process's own. What was not shows what the file has now: so nobody may write there.
static void written_into(void) {
  int file = made(path, SIZE);
  NEED(device_pread(file, given, SIZE, 0) == SIZE);
  given[0] = said[0] = 'a';
  NEED(pwrite(file, "bb", 2, 0) == 2 && pwrite(file, "bb", 2, 7 * 4096) == 2);
  NEED(given[0] == 'a' && given[1] == said[1] && given[7 * 4096] == 'b');
}

static void all_are_copied(void) {
  setenv("GITPOOL_COPY", "1", 1);
  int file = made(path, SIZE);
  random_reads(file, 2000);
  NEED(count_maps == 0 && device_pread(file, given, SIZE, 0) == SIZE && !ftruncate(file, 0));
  read_all();
}

static const struct {
  const char *name;
  void (*act)(void);
} tests[] = {
    {"100,000 reads answer what pread answers", equal_to_pread},
    {"holes, and files of few bytes", holes_and_sizes},
    {"what is no regular file, or is not open for reading", no_regular_file},
    {"a file system without mmap", no_mmap},
    {"a kernel that does not move pages", no_mremap},
    {"no more mappings", no_more_mappings},
    {"no more ranges", no_more_ranges},
    {"reads that come short", short_reads},
    {"sectors that cannot be read", bad_sectors},
    {"writes into pages are copied", writes_are_copied},
    {"other faults end the process as before", others_fault},
    {"pages count as data once they are written into", data_is_counted},
    {"a file that is cut", cut},
    {"a file that is replaced and removed", replaced},
    {"a file that is written into", written_into},
    {"GITPOOL_COPY=1 copies", all_are_copied},
};

int main(int argc, char **argv) {
  int passed = 0, count = sizeof tests / sizeof *tests;
  if (argc != 2) return 2;
  snprintf(path, sizeof path, "%s/file", argv[1]);
  snprintf(other, sizeof other, "%s/other", argv[1]);
  given = pages(ROOM);
  wanted = pages(ROOM);
  for (int at = 0; at < count; at++) {
    int status = -1;
    fflush(stdout);
    pid_t pid = fork();
    if (!pid) {
      tests[at].act();
      exit(0);
    }
    waitpid(pid, &status, 0);
    printf("%s %s\n", status ? "FAILED" : "ok", tests[at].name);
    passed += !status;
  }
  printf("%d passed, %d failed\n", passed, count - passed);
  return passed != count;
}

// The device that stands before the C library: a pread(2) that maps.
//
// A read of 32 MiB or more, where the file and the buffer lie alike in pages, moves no bytes: the file's pages take the place of the
// buffer's. What was read is then page cache, which the kernel may drop and read again, and no memory of the process. Whatever
// cannot be mapped is copied. The answer is that of pread: the bytes, how many they are, or the error.
//
// The pages are private. They count as data (`ulimit -d`) only once they are written into: the first write makes a page writable, and the
// kernel copies it. Three things are unlike pread: a page whose bytes are gone, or that the disk does not give, ends the process by SIGBUS
// when it is used; bytes that somebody changes in the file later may show; and another system call that writes into such a page gets EFAULT.
//
// GITPOOL_COPY=1 in the environment lets every read copy. glibc gives each block of 32 MiB or more a mapping of its own, so that no page
// of a file comes back as other memory once a block is freed. For programs of one thread, on Linux for x86-64.
#define _GNU_SOURCE
#include <limits.h>
#include <signal.h>
#include <stdint.h>
#include <stdlib.h>
#include <string.h>
#include <sys/mman.h>
#include <sys/stat.h>
#include <sys/syscall.h>
#include <ucontext.h>
#include <unistd.h>

// (a test compiles other sizes)
#ifndef LARGE
#define LARGE ((size_t)32 << 20)
#define RANGES 32768
#endif
#define PAGE ((size_t)4096)
// No read of Linux gives more.
#define MOST ((size_t)0x7ffff000)

// Where pages of files are, and what a fault did before.
static struct { uintptr_t from, to; } ranges[RANGES];
static size_t count_ranges;
static struct sigaction before;

static size_t in_page(uintptr_t at) { return at % PAGE; }

// Makes the pages of files between two addresses writable. Answers of how many ranges they were.
static size_t make_writable(uintptr_t from, uintptr_t to) {
  size_t many = 0;
  for (size_t at = 0; at < count_ranges; at++) {
    uintptr_t first = from - in_page(from), last = to;
    if (first < ranges[at].from) first = ranges[at].from;
    if (last > ranges[at].to) last = ranges[at].to;
    if (first < last && !mprotect((void *)first, last - first, PROT_READ | PROT_WRITE)) many++;
  }
  return many;
}

// Lets a write into a page of a file go on. Any other fault comes again at once, and does what it did before.
static void on_fault(int number, siginfo_t *fault, void *context) {
  uintptr_t at = (uintptr_t)fault->si_addr;
  int is_write = (((ucontext_t *)context)->uc_mcontext.gregs[REG_ERR] & 2) != 0;
  if (!is_write || fault->si_code != SEGV_ACCERR || !make_writable(at, at + 1)) sigaction(number, &before, NULL);
}

static int is_wanted(void) {
  static int answer = -1;
  if (answer < 0) {
    const char *copy = getenv("GITPOOL_COPY");
    struct sigaction ours = {.sa_sigaction = on_fault, .sa_flags = SA_SIGINFO};
    answer = !(copy && !strcmp(copy, "1")) && !sigaction(SIGSEGV, &ours, &before);
  }
  return answer;
}

static ssize_t copy(int file, char *to, size_t count, off_t at) {
  if (count_ranges) make_writable((uintptr_t)to, (uintptr_t)to + count);
  return syscall(SYS_pread64, file, to, count, at);
}

// How many bytes of a regular file a read at an offset gives. 0 where this is none.
static size_t bytes_at(int file, size_t count, off_t at) {
  struct stat status;
  if (fstat(file, &status) || !S_ISREG(status.st_mode) || at >= status.st_size) return 0;
  size_t left = (size_t)(status.st_size - at);
  if (count > MOST) count = MOST;
  return count < left ? count : left;
}

// Notes where pages of a file are, in the place of what was noted of pages that are gone.
static void note(uintptr_t from, uintptr_t to) {
  size_t at = 0;
  while (at < count_ranges && (ranges[at].from < from || ranges[at].to > to)) at++;
  if (at == count_ranges) count_ranges++;
  ranges[at].from = from;
  ranges[at].to = to;
}

// Puts pages of a file in the place of others, and answers whether it did. They are mapped elsewhere first: what cannot be mapped changes nothing.
static int map_over(char *to, size_t size, int file, off_t at) {
  if (count_ranges == RANGES) return 0;
  void *pages = mmap(NULL, size, PROT_READ, MAP_PRIVATE, file, at);
  if (pages == MAP_FAILED) return 0;
  if (mremap(pages, size, size, MREMAP_MAYMOVE | MREMAP_FIXED, to) == to) {
    note((uintptr_t)to, (uintptr_t)to + size);
    return 1;
  }
  munmap(pages, size);
  mmap(to, size, PROT_READ | PROT_WRITE, MAP_PRIVATE | MAP_ANONYMOUS | MAP_FIXED, -1, 0);
  return 0;
}

// Reads so many bytes, which the file has: whole pages by a mapping, and what stands before and behind them by a copy.
static ssize_t map_or_copy(int file, char *to, size_t count, off_t at) {
  size_t head = in_page(-(uintptr_t)to), body = (count - head) / PAGE * PAGE;
  if (!map_over(to + head, body, file, at + (off_t)head)) return copy(file, to, count, at);
  ssize_t front = head ? copy(file, to, head, at) : 0;
  if (front != (ssize_t)head) return front;
  size_t done = head + body;
  ssize_t tail = done < count ? copy(file, to + done, count - done, at + (off_t)done) : 0;
  return (ssize_t)done + (tail > 0 ? tail : 0);
}

ssize_t pread(int file, void *to, size_t count, off_t at) {
  int is_alike = in_page((uintptr_t)to) == in_page((uintptr_t)at);
  if (count < LARGE || count > SSIZE_MAX || at < 0 || !is_alike || !is_wanted()) return copy(file, to, count, at);
  size_t many = bytes_at(file, count, at);
  return many < LARGE ? copy(file, to, count, at) : map_or_copy(file, to, many, at);
}

ssize_t pread64(int file, void *to, size_t count, off_t at) { return pread(file, to, count, at); }

// Lets the calls of one device fail, from one of them on, in a program that it starts:
//
//   fail DEVICE PIECE FIRST NOTES PROGRAM WORD..
//
// DEVICE is <0 for reads of standard input, >1 for writes to standard output, <PATH for reads of a file, >PATH for writes to it,
// its fsync and its rename. Each call moves at most PIECE bytes; the one of number FIRST, from 1, and all after it answer EIO.
// NOTES is a file that gets three numbers of 8 bytes: calls, those that failed, and the bytes that went through. The status is the
// program's, or 200 and the number of the signal that ended it; 125 where it cannot be traced. For x86-64.
#define _GNU_SOURCE
#include <errno.h>
#include <fcntl.h>
#include <limits.h>
#include <signal.h>
#include <stdint.h>
#include <stdio.h>
#include <stdlib.h>
#include <string.h>
#include <sys/ptrace.h>
#include <sys/syscall.h>
#include <sys/uio.h>
#include <sys/user.h>
#include <sys/wait.h>
#include <unistd.h>

static uint64_t notes[3], piece, first;
static const char *device;
static int writes;

// Whether a number is that of the device.
static int has_number(pid_t pid, uint64_t number) {
  char link[64], path[PATH_MAX];
  if (device[0] != '/') return number == strtoull(device, 0, 10);
  snprintf(link, sizeof link, "/proc/%d/fd/%llu", pid, (unsigned long long)number);
  ssize_t len = readlink(link, path, sizeof path - 1);
  return len >= 0 && (size_t)len == strlen(device) && !memcmp(path, device, len);
}

// Whether the program has the path of the device at this address.
static int has_path(pid_t pid, uint64_t at) {
  char path[PATH_MAX];
  size_t len = strlen(device) + 1;
  struct iovec here = {path, len}, there = {(void *)at, len};
  return process_vm_readv(pid, &here, 1, &there, 1, 0) == (ssize_t)len && !memcmp(path, device, len);
}

static int is_counted(pid_t pid, const struct user_regs_struct *regs) {
  switch (regs->orig_rax) {
    case SYS_read: case SYS_pread64: return !writes && has_number(pid, regs->rdi);
    case SYS_write: case SYS_fsync: return writes && has_number(pid, regs->rdi);
    case SYS_rename: return writes && has_path(pid, regs->rdi);
    default: return 0;
  }
}

static int moves_bytes(uint64_t call) { return call == SYS_read || call == SYS_pread64 || call == SYS_write; }

// Goes on to where the next call begins or ends; ends with the program.
static void go_on(pid_t pid) {
  int status, signal = 0;
  do {
    ptrace(PTRACE_SYSCALL, pid, 0, signal);
    waitpid(pid, &status, 0);
    if (WIFEXITED(status) || WIFSIGNALED(status)) exit(WIFEXITED(status) ? WEXITSTATUS(status) : 200 + WTERMSIG(status));
    signal = WSTOPSIG(status) == SIGTRAP ? 0 : WSTOPSIG(status);
  } while (WSTOPSIG(status) != (SIGTRAP | 0x80));
}

// One call, from its begin to its end.
static void one_call(pid_t pid, int file) {
  struct user_regs_struct regs;
  go_on(pid);
  ptrace(PTRACE_GETREGS, pid, 0, &regs);
  uint64_t call = regs.orig_rax, size = regs.rdx, counted = is_counted(pid, &regs), fails = counted && ++notes[0] >= first;
  if (counted && moves_bytes(call) && size > piece) regs.rdx = piece;
  if (fails) regs.orig_rax = -1;
  if (counted) ptrace(PTRACE_SETREGS, pid, 0, &regs);
  go_on(pid);
  if (!counted) return;
  ptrace(PTRACE_GETREGS, pid, 0, &regs);
  regs.rdx = size;  // a call keeps this register
  if (fails) regs.rax = -EIO;
  ptrace(PTRACE_SETREGS, pid, 0, &regs);
  notes[1] += fails;
  notes[2] += moves_bytes(call) && (int64_t)regs.rax > 0 ? regs.rax : 0;
  if (pwrite(file, notes, sizeof notes, 0) != sizeof notes) exit(125);
}

int main(int count, char **words) {
  if (count < 6) return 125;
  writes = words[1][0] == '>';
  device = words[1] + 1;
  piece = strtoull(words[2], 0, 10);
  first = strtoull(words[3], 0, 10);
  int file = open(words[4], O_WRONLY | O_CREAT | O_CLOEXEC, 0600);
  pid_t pid = fork();
  if (!pid) {
    ptrace(PTRACE_TRACEME, 0, 0, 0);
    raise(SIGSTOP);
    execv(words[5], words + 5);
    _exit(125);
  }
  int status;
  if (file < 0 || waitpid(pid, &status, 0) != pid || !WIFSTOPPED(status)) return 125;
  if (ptrace(PTRACE_SETOPTIONS, pid, 0, PTRACE_O_TRACESYSGOOD | PTRACE_O_EXITKILL)) return 125;
  for (;;) one_call(pid, file);
}

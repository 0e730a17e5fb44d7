package child

import (
	"fmt"
	"os"
	"os/exec"
	"path/filepath"
	"strings"
	"syscall"
	"testing"
)

// TestMemoryIsToldApart maps a file and takes as much memory beside it: each counts where it belongs, and the kernel's own words say the same.
func TestMemoryIsToldApart(t *testing.T) {
	const size, some = 64 << 20, 16 << 20
	file, err := os.Create(filepath.Join(t.TempDir(), "file"))
	if err != nil {
		t.Fatal(err)
	}
	defer file.Close()
	if _, err := file.Write(make([]byte, size)); err != nil {
		t.Fatal(err)
	}
	before := MemoryOf(os.Getpid())
	mapped, err := syscall.Mmap(int(file.Fd()), 0, size, syscall.PROT_READ, syscall.MAP_PRIVATE)
	if err != nil {
		t.Fatal(err)
	}
	defer syscall.Munmap(mapped)
	sum := byte(0)
	for at := 0; at < size; at += 4096 {
		sum += mapped[at]
	}
	with := MemoryOf(os.Getpid())
	if with.File-before.File < size-some || with.Mapped-before.Mapped != size || with.Anonymous-before.Anonymous > some {
		t.Fatalf("%+v, and with %d bytes of a file %+v", before, size, with)
	}
	own, err := syscall.Mmap(-1, 0, size, syscall.PROT_READ|syscall.PROT_WRITE, syscall.MAP_PRIVATE|syscall.MAP_ANON)
	if err != nil {
		t.Fatal(err)
	}
	defer syscall.Munmap(own)
	for at := 0; at < size; at += 4096 {
		own[at] = sum + 1
	}
	now := MemoryOf(os.Getpid())
	if now.Anonymous-with.Anonymous < size-some || now.Mapped != with.Mapped || now.Held() != now.Anonymous+now.Mapped {
		t.Fatalf("%+v, and with %d bytes more %+v", with, size, now)
	}
	if said := said(t, "RssAnon:"); said < now.Anonymous-some || said > now.Anonymous+some {
		t.Fatalf("RssAnon %d, and not %d", said, now.Anonymous)
	}
	if said := said(t, "RssFile:") + said(t, "RssShmem:"); said < now.File-some || said > now.File+some {
		t.Fatalf("RssFile %d, and not %d", said, now.File)
	}
	if none := MemoryOf(0); none != (Memory{}) {
		t.Fatal(none)
	}
}

// said gives a line of /proc/self/status.
func said(t *testing.T, name string) (kilobytes int64) {
	text, err := os.ReadFile("/proc/self/status")
	if err != nil {
		t.Fatal(err)
	}
	_, rest, _ := strings.Cut(string(text), name)
	if _, err := fmt.Sscan(rest, &kilobytes); err != nil {
		t.Fatal(err)
	}
	return kilobytes << 10
}

func TestWhyAChildEnded(t *testing.T) {
	for command, want := range map[string]string{
		"kill -BUS $$":  "SIGBUS, for a page of its pool file is gone or cannot be read: somebody has cut the file, or its disk fails",
		"kill -SEGV $$": "signal: segmentation fault",
		"exit 5":        "exit status 5",
	} {
		if got := Why(exec.Command("sh", "-c", "ulimit -c 0; "+command).Run()); got != want {
			t.Fatalf("%s: %q", command, got)
		}
	}
}

// TestAProgramRunsBehindItsDevice has the program in a folder whose name no list of the loader could have, and calls it by a link.
func TestAProgramRunsBehindItsDevice(t *testing.T) {
	folder := filepath.Join(t.TempDir(), "a b:c;d$e")
	program, link := filepath.Join(folder, "program"), filepath.Join(t.TempDir(), "link")
	must(t, os.Mkdir(folder, 0o700))
	must(t, exec.Command("cp", "/bin/cat", program).Run())
	must(t, os.Symlink(program, link))
	if got := Behind(link, "a", "b"); strings.Join(got, "|") != link+"|a|b" {
		t.Fatal(got)
	}
	must(t, exec.Command("../../packaging/device", filepath.Join(folder, "pread.so")).Run())
	words := Behind(link, "/proc/self/maps")
	said, err := exec.Command(words[0], words[1:]...).CombinedOutput()
	if err != nil || !strings.Contains(string(said), folder+"/pread.so\n") || strings.Contains(string(said), "cannot be preloaded") {
		t.Fatalf("%q: %s, %v", words, said, err)
	}
	must(t, os.WriteFile(filepath.Join(folder, "script"), []byte("#!/bin/sh\n"), 0o700))
	if got := Behind(filepath.Join(folder, "script")); len(got) != 1 {
		t.Fatal(got)
	}
	t.Setenv("LD_PRELOAD", "libc.so.6")
	if got := Behind(link)[1]; got != "LD_PRELOAD=$ORIGIN/pread.so:libc.so.6" {
		t.Fatal(got)
	}
}

func must(t *testing.T, err error) {
	t.Helper()
	if err != nil {
		t.Fatal(err)
	}
}

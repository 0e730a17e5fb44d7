package store

import (
	"fmt"
	"os"
	"os/exec"
	"path/filepath"
	"strings"
	"syscall"
	"testing"
	"time"

	"gitpoold/await"
	"gitpoold/child"
)

// largeCommits is how many commits of 1 MiB the large pool file has.
const largeCommits = 100

// TestAChildThatSIGBUSEnds has the child end as a bad page would end it.
func TestAChildThatSIGBUSEnds(t *testing.T) {
	c := plain(t, folder(t))
	count := heard(&c)
	s := opened(t, c)
	defer s.Close(background)
	pushAll(t, s, "m0")
	must(t, syscall.Kill(s.State().ChildPid, syscall.SIGBUS))
	await.Until(t, "another child", func() bool { return s.Counts().Recoveries == 1 })
	const why = "SIGBUS, for a page of its pool file is gone or cannot be read"
	if state := s.State(); count("the child ended: "+why) != 1 || !strings.HasPrefix(state.LastEnd, why) || time.Since(state.EndedAt) > await.Longest {
		t.Fatalf("%+v", state)
	}
	pushAll(t, s, "m1")
	hasMessages(t, s, "a", "refs/heads/main", []string{"m1", "m0"})
}

// large is the message of a large commit.
func large(at int) string { return strings.Repeat(fmt.Sprintf("%07d\n", at), 1<<17) }

// mapping is the configuration of a pool whose program runs behind its device, with a large pool file. The device maps reads of 1 MiB, so that
// the file need not be larger. The test is left out for a program that does not read its pool file by large reads.
func mapping(t *testing.T) Config {
	t.Helper()
	c := plain(t, folder(t))
	if text, err := os.ReadFile(program(t)); err != nil || strings.HasPrefix(string(text), "#!") {
		t.Skip("GITPOOL is no executable, but a script")
	}
	c.Program = filepath.Join(t.TempDir(), "gitpool")
	must(t, exec.Command("cp", program(t), c.Program).Run())
	place := filepath.Join(filepath.Dir(c.Program), "pread.so")
	must(t, exec.Command("gcc", "-shared", "-fPIC", "-O2", "-DLARGE=1048576ul", "-DRANGES=4096", "-o", place, "../../packaging/pread.c").Run())
	load := exec.Command(c.Program, "import", "a", "--pool", filepath.Join(c.Folder, "pool"))
	var stream strings.Builder
	for at := 0; at < largeCommits; at++ {
		fmt.Fprintf(&stream, "commit refs/heads/b%d\ncommitter a <a@b> 1 +0000\ndata %d\n%s\n", at, 1<<20, large(at))
	}
	load.Stdin = strings.NewReader(stream.String())
	must(t, load.Run())
	s := opened(t, c)
	defer s.Close(background)
	if child.MemoryOf(s.State().ChildPid).Mapped < 64<<20 {
		t.Skip("this program does not read its pool file in parts that can be mapped")
	}
	return c
}

// TestAMappedFileIsNoMemory lets the child have less memory than its pool file has bytes, but enough for one part. It loads, answers, takes a push,
// and saves.
func TestAMappedFileIsNoMemory(t *testing.T) {
	c := mapping(t)
	c.ChildMemory = 80 << 20
	s := opened(t, c)
	must(t, push(s, "a", "refs/heads/main", "m"))
	must(t, s.Save(background))
	if memory := child.MemoryOf(s.State().ChildPid); memory.Anonymous > c.ChildMemory || memory.Mapped < 64<<20 {
		t.Fatalf("%+v", memory)
	}
	if got := ask(t, s, "a", "cat refs/heads/b3"); !strings.Contains(got, large(3)) {
		t.Fatal(len(got))
	}
	must(t, s.Close(background))
	t.Setenv("GITPOOL_COPY", "1")
	if s, err := Open(c); err == nil {
		s.Abort()
		t.Fatal("100 MiB are copied into 80")
	}
}

// TestAPoolFileThatIsCutUnderItsChild has somebody cut the file, and put it right again once the server says why its child ended. What was told since
// the last save is there.
func TestAPoolFileThatIsCutUnderItsChild(t *testing.T) {
	c := mapping(t)
	count := heard(&c)
	s := opened(t, c)
	defer s.Close(background)
	must(t, push(s, "a", "refs/heads/main", "m0"))
	file := filepath.Join(c.Folder, "pool")
	text, err := os.ReadFile(file)
	must(t, err)
	must(t, os.Truncate(file, 4096))
	mended := make(chan error)
	go func() {
		for count("the child ended: SIGBUS") == 0 {
			time.Sleep(time.Millisecond)
		}
		mended <- os.WriteFile(file, text, 0o600)
	}()
	if got := ask(t, s, "a", "cat refs/heads/b0"); !strings.Contains(got, large(0)) {
		t.Fatal(len(got))
	}
	must(t, <-mended)
	hasMessages(t, s, "a", "refs/heads/main", []string{"m0"})
	must(t, push(s, "a", "refs/heads/main", "m1"))
	hasMessages(t, s, "a", "refs/heads/main", []string{"m1", "m0"})
}

// TestAPoolFileThatIsReplacedUnderItsChild has another file under the name, and then none. The child has the file that it mapped.
func TestAPoolFileThatIsReplacedUnderItsChild(t *testing.T) {
	c := mapping(t)
	s := opened(t, c)
	defer s.Close(background)
	file := filepath.Join(c.Folder, "pool")
	must(t, os.WriteFile(file+".other", []byte("no pool file"), 0o600))
	must(t, os.Rename(file+".other", file))
	for at := 0; at < largeCommits; at++ {
		if got := ask(t, s, "a", fmt.Sprint("cat refs/heads/b", at)); !strings.Contains(got, large(at)) {
			t.Fatal(len(got))
		}
	}
	if s.Counts().Recoveries != 0 {
		t.Fatal(s.State())
	}
}

package fsck_test

import (
	"encoding/json"
	"fmt"
	"math/rand"
	"os"
	"os/exec"
	"path/filepath"
	"regexp"
	"slices"
	"strings"
	"testing"

	"gitpoold/fsck"
	"gitpoold/pack"
	"gitpoold/plumbing"
)

// sample is one object: its kind, its contents, and for a blob the file that git takes it for.
type sample struct {
	kind     plumbing.Kind
	contents string
	special  fsck.Special
}

func (s sample) name() plumbing.Name { return pack.NameOf(s.kind, []byte(s.contents)) }

// byteOrderMark may begin a .gitmodules file in a work tree. Git's fsck cannot read a blob that begins with it, so here it is read as in a work tree.
const byteOrderMark = "\xef\xbb\xbf"

const (
	ident  = "A <a@b> 1 +0000"
	header = "tree " + zeros + "2\n"
	zeros  = "000000000000000000000000000000000000000"
	target = "object " + zeros + "4\ntype commit\n"
)

func commits(lines ...string) (samples []sample) {
	for _, it := range lines {
		samples = append(samples, sample{kind: plumbing.Commit, contents: it})
	}
	return samples
}

// idents has a commit for each form of an author's line, and one where the committer has it.
func idents() (samples []sample) {
	for _, it := range []string{"<a@b> 1 +0000", " <a@b> 1 +0000", "A<a@b> 1 +0000", "A 1 +0000", "A > 1 +0000", "A <a@b 1 +0000", "A <a<b> 1 +0000", "A> <a@b> 1 +0000",
		"A <a@b>1 +0000", "A <a@b>> 1 +0000", "A <a@b>", "A <a@b> ", "A <a@b> x +0000", "A <a@b> 1", "A <a@b> 1 ", "A <a@b> 1 0000", "A <a@b> 1 +000", "A <a@b> 1 +051800",
		"A <a@b> 1 +0000 ", "A <a@b> 1 +0000\r", "A <a@b> 01 +0000", "A <a@b> 0 +0000", "A <a@b> 00 +0000", "A <a@b> -1 +0000", "A <a@b> +1 +0000", "A <a@b>  1 +0000",
		"A <a@b> 9223372036854775807 +0000", "A <a@b> 9223372036854775808 +0000", "A <a@b> 99999999999999999999999 +0000", "A <a@b> 18446744073709551615 +0000",
		"A <> 1 +0000", "A <a@b> 1 +9999", "A <a@b> 1 -0000", "", "\xff <\xfe> 1 +0000"} {
		samples = append(samples, commits(header+"author "+it+"\ncommitter "+ident+"\n\nm", header+"author "+ident+"\ncommitter "+it+"\n\nm")...)
		samples = append(samples, sample{kind: plumbing.Tag, contents: target + "tag v\ntagger " + it + "\n\nm"})
	}
	return samples
}

func headers() []sample {
	people := "author " + ident + "\ncommitter " + ident + "\n"
	return commits(header+people+"\nm", header+people, header+people+"gpgsig -----BEGIN\n x\n\nm", header+"parent "+zeros+"3\n"+people+"\nm",
		header+people+"parent "+zeros+"3\n\nm", header+people+"\nm\x00m", header+"author A\x00 <a@b> 1 +0000\ncommitter "+ident+"\n\nm", header+people[:len(people)-1],
		header+"committer "+ident+"\n\nm", header+"author "+ident+"\n\nm", header+"author "+ident+"\n"+people+"\nm", header+"committer "+ident+"\nauthor "+ident+"\n\nm",
		header+people+people+"\nm", header+people+"encoding\nencoding x\nencoding y\n\nm", "tree "+strings.ToUpper("abcdef"+zeros[6:])+"2\n"+people+"\nm")
}

func tags() (samples []sample) {
	tagger := "tagger " + ident + "\n"
	for _, it := range []string{target + "tag v1\n" + tagger + "\nm", target + "tag v1\n\nm", target + "tag v1\n" + tagger + "more x\n\nm", target + "tag a b\n" + tagger + "\nm",
		target + "tag \n" + tagger + "\nm", target + "tag v..1\n" + tagger + "\nm", target + "tag v1\n" + tagger, target + "tag v1\n" + tagger + "\nm\x00", target + "tag v\x001\n" + tagger + "\nm",
		strings.Replace(target, "commit", "tree", 1) + "tag v1\n" + tagger + "\nm", target + "tag v1\ntagger A <a@b>\n\nm"} {
		samples = append(samples, sample{kind: plumbing.Tag, contents: it})
	}
	return samples
}

func entryText(mode, name string, object byte) string {
	return mode + " " + name + "\x00" + strings.Repeat("\x00", 19) + string([]byte{object})
}

func trees() (samples []sample) {
	one := func(mode, name string) string { return entryText(mode, name, 7) }
	for _, it := range []string{"", one("100644", "a"), one("100664", "a"), one("100600", "a"), one("100640", "a"), one("40755", "a"), one("120777", "a"), one("140000", "a"),
		one("0100644", "a"), one("040000", "a"), one("0120000", "a"), entryText("100644", "a", 0), entryText("160000", "a", 0), one("100644", "a/b"), one("100644", "."),
		one("100644", ".."), one("40000", ".git"), one("100644", "GIT~1"), one("100644", ".g\u200cit"), one("100644", "a\\.git"), one("100644", ".git. ."), one("100644", ".git::$INDEX"),
		one("120000", ".gitmodules"), one("120000", "gitmod~1"), one("120000", ".gitattributes"), one("120000", ".gitignore"), one("120000", ".mailmap"), one("120000", "GI250A~1"),
		one("120000", "MABA30~1"), one("120000", "a\\.gitmodules"), one("100644", "b") + one("100644", "a"), one("100644", "a") + one("100644", "a"), one("100644", "a") + one("40000", "a"),
		one("100644", "a") + one("100644", "a.c") + one("40000", "a"), one("100644", "a") + one("100644", "a-b") + one("100644", "a-b-c") + one("40000", "a-b") + one("40000", "a"),
		one("40000", "a") + one("100644", "a.c"), one("100644", "a") + one("100644", "a-b") + one("100644", "a0") + one("40000", "a"), one("100644", "a")[:20], "100644 a", "x00644 a\x00"} {
		samples = append(samples, sample{kind: plumbing.Tree, contents: it})
	}
	return samples
}

func blobs() (samples []sample) {
	for _, it := range []string{"[submodule \"a\"]\n\turl = x\n", "[submodule \"..\"]\n", "[submodule \"a\"]\n\turl = -x\n", "[submodule \"a\"]\n\tpath = -x\n", "[submodule \"a\"]\n\tupdate = !x\n",
		"[submodule \"a\"]\n\turl = ../../:x\n", "[submodule \"a\n", "[x", "\xef\xbb\xbf[submodule \"b\"]\nurl=--x\n", "[submodule \"a/../b\"]\nurl = \"http://h%0ay\"\n"} {
		samples = append(samples, sample{plumbing.Blob, it, fsck.Modules})
	}
	for _, it := range []string{"* text\n", strings.Repeat("a", 2047) + "\n", strings.Repeat("a", 2048) + "\n", "x\n" + strings.Repeat("b", 3000)} {
		samples = append(samples, sample{plumbing.Blob, it, fsck.Attributes})
	}
	return samples
}

// corpus has the samples that clients/tests has for what a tenant keeps.
func corpus(t *testing.T) (samples []sample) {
	var read []struct{ Kind, Contents string }
	text, err := os.ReadFile(filepath.Join("..", "..", "clients", "tests", "objects.json"))
	if err == nil {
		err = json.Unmarshal(text, &read)
	}
	if err != nil {
		t.Fatal(err)
	}
	kinds := map[string]sample{"commit": {kind: plumbing.Commit}, "tag": {kind: plumbing.Tag}, "tree": {kind: plumbing.Tree},
		"modules": {kind: plumbing.Blob, special: fsck.Modules}, "attributes": {kind: plumbing.Blob, special: fsck.Attributes}}
	for _, it := range read {
		made, isObject := kinds[it.Kind]
		if !isObject {
			continue
		}
		var contents []byte
		for _, r := range it.Contents {
			contents = append(contents, byte(r))
		}
		made.contents = string(contents)
		samples = append(samples, made)
	}
	return samples
}

// mutants changes samples at random: bytes, lines that are doubled, moved or cut.
func mutants(from []sample, count int) (samples []sample) {
	random := rand.New(rand.NewSource(7))
	for len(samples) < count {
		it := from[random.Intn(len(from))]
		if it.kind == plumbing.Blob || it.contents == "" {
			continue
		}
		it.contents = mutated(random, it.contents)
		samples = append(samples, it)
	}
	return samples
}

func mutated(random *rand.Rand, text string) string {
	lines := strings.SplitAfter(text, "\n")
	at, other := random.Intn(len(lines)), random.Intn(len(lines))
	place := random.Intn(len(text))
	switch random.Intn(5) {
	case 0:
		return text[:place] + string([]byte{"\x00 <>+-0179atp\n\xff"[random.Intn(15)]}) + text[place:]
	case 1:
		return text[:place] + text[place+1:]
	case 2:
		lines = slices.Insert(lines, other, lines[at])
	case 3:
		lines[at], lines[other] = lines[other], lines[at]
	default:
		lines = slices.Delete(lines, at, at+1)
	}
	return strings.Join(lines, "")
}

var refForbidden = regexp.MustCompile(`[\x00-\x20\x7f~^:?*\[\\]|\.\.|@\{|//|/\.|\.lock(/|$)|[/.]$`)

func isRefName(ref string) bool { return !refForbidden.MatchString(latin(ref)) }

// latin puts a letter in the place of each byte that is no ASCII, so that an expression reads bytes.
func latin(text string) string {
	bytes := []byte(text)
	for at, b := range bytes {
		if b >= 0x80 {
			bytes[at] = 'a'
		}
	}
	return string(bytes)
}

// judged gives the messages of our own about a sample, as git prints them in front of its sentence.
func judged(rules fsck.Rules, s sample) (said []string) {
	var found []fsck.Finding
	switch s.kind {
	case plumbing.Commit:
		found = rules.Commit([]byte(s.contents))
	case plumbing.Tag:
		found = rules.Tag([]byte(s.contents), isRefName)
	case plumbing.Tree:
		found = rules.Tree([]byte(s.contents), func(plumbing.Name, fsck.Special) {})
	default:
		found = rules.Special(plumbing.Object{Kind: s.kind, Contents: []byte(s.contents)}, s.special)
	}
	for _, it := range found {
		level := "warning"
		if it.Level >= fsck.Error {
			level = "error"
		}
		said = append(said, level+" "+it.String())
	}
	return said
}

// room makes a repository of git's that has the samples, and a tree for the blobs.
func room(t *testing.T, samples []sample) string {
	folder := t.TempDir()
	git(t, folder, "", "init", "-q", "--bare")
	paths, special := map[string]string{}, ""
	for at, s := range samples {
		path := filepath.Join(folder, fmt.Sprint("sample-", at))
		if err := os.WriteFile(path, []byte(s.contents), 0o600); err != nil {
			t.Fatal(err)
		}
		paths[s.kind.String()] += path + "\n"
		if s.kind == plumbing.Blob {
			special += "100644 blob " + s.name().String() + "\t" + map[fsck.Special]string{fsck.Modules: ".gitmodules", fsck.Attributes: ".gitattributes"}[s.special] + "\n\n"
		}
	}
	for kind, list := range paths {
		git(t, folder, list, "hash-object", "-w", "--literally", "-t", kind, "--no-filters", "--stdin-paths")
	}
	git(t, folder, special, "mktree", "--missing", "--batch")
	return folder
}

func git(t *testing.T, folder, input string, words ...string) string {
	t.Helper()
	command := exec.Command("git", append([]string{"-C", folder}, words...)...)
	command.Stdin = strings.NewReader(input)
	said, err := command.Output()
	if err != nil {
		t.Fatalf("git %v: %v", words, err)
	}
	return string(said)
}

var (
	message  = regexp.MustCompile(`(?s)^(error|warning) in \w+ ([0-9a-f]{40}): (\w+: .*)$`)
	unparsed = regexp.MustCompile(`\b([0-9a-f]{40})\b.*(could not be parsed|corrupt)`)
)

// said gives what git's fsck says of each object, and the objects that it cannot even parse.
func said(folder string, settings ...string) (messages map[string][]string, broken map[string]bool) {
	words := append([]string{"-C", folder}, settings...)
	text, _ := exec.Command("git", append(words, "fsck", "--strict", "--no-dangling")...).CombinedOutput()
	messages, broken = map[string][]string{}, map[string]bool{}
	for _, line := range strings.Split(string(text), "\n") {
		if found := message.FindStringSubmatch(line); found != nil {
			messages[found[2]] = append(messages[found[2]], found[1]+" "+found[3])
		} else if found := unparsed.FindStringSubmatch(line); found != nil {
			broken[found[1]] = true
		}
	}
	return messages, broken
}

func samples(t *testing.T) []sample {
	all := slices.Concat(idents(), headers(), tags(), trees())
	return slices.Concat(all, mutants(all, 1500), blobs(), corpus(t))
}

// firstLines cuts what git would print on further lines, or not print: of a name that is odd itself.
func firstLines(said []string) (lines []string) {
	for _, it := range said {
		line, _, _ := strings.Cut(it, "\n")
		line, _, _ = strings.Cut(line, "\x00")
		lines = append(lines, line)
	}
	slices.Sort(lines)
	return slices.Compact(lines)
}

// compare compares each message about each sample, and its level, with what git says under these settings.
func compare(t *testing.T, folder string, all []sample, rules fsck.Rules, settings ...string) {
	messages, broken := said(folder, settings...)
	if len(messages) < 500 {
		t.Fatalf("git says something of %d objects", len(messages))
	}
	count := 0
	for _, s := range all {
		name := s.name().String()
		if broken[name] || s.kind == plumbing.Blob && strings.HasPrefix(s.contents, byteOrderMark) {
			continue
		}
		count++
		if ours, gits := firstLines(judged(rules, s)), firstLines(messages[name]); !slices.Equal(ours, gits) {
			t.Errorf("%s %.300q:\nours %q\ngits %q", s.kind, s.contents, ours, gits)
		}
	}
	if count < 1000 {
		t.Errorf("git could parse %d objects", count)
	}
}

// TestGitSaysTheSame asks git about the samples by the rules of receive.fsckObjects, by those of a public site, and with other levels of single
// messages.
func TestGitSaysTheSame(t *testing.T) {
	all := samples(t)
	folder := room(t, all)
	t.Run("strict", func(t *testing.T) { compare(t, folder, all, fsck.Strict()) })
	t.Run("hosting", func(t *testing.T) {
		compare(t, folder, all, fsck.Rules{}, "-c", "fsck.badTimezone=warn", "-c", "fsck.missingSpaceBeforeDate=warn", "-c", "fsck.zeroPaddedFilemode=warn",
			"-c", "fsck.nulInCommit=warn")
	})
	t.Run("levels", func(t *testing.T) {
		rules, settings := fsck.Strict(), []string{}
		for _, it := range [][2]string{{"BADEMAIL", "ignore"}, {"missingAuthor", "warn"}, {"treeNotSorted", "warn"}, {"badTagName", "error"}, {"extraHeaderEntry", "error"},
			{"missingTaggerEntry", "error"}, {"badTreeSha1", "warn"}, {"zeroPaddedDate", "ignore"}} {
			var err error
			if rules, err = rules.With(it[0], it[1]); err != nil {
				t.Fatal(err)
			}
			settings = append(settings, "-c", "fsck."+it[0]+"="+it[1])
		}
		compare(t, folder, all, rules, settings...)
	})
}

func TestLevelsThatAreRefused(t *testing.T) {
	for _, it := range [][2]string{{"noSuchMessage", "warn"}, {"badDate", "loud"}, {"nulInHeader", "warn"}, {"unterminatedHeader", "ignore"}} {
		if _, err := fsck.Strict().With(it[0], it[1]); err == nil {
			t.Errorf("%s %s is taken", it[0], it[1])
		}
	}
	if fault := fsck.Fault(fsck.Off().Commit([]byte("x"))); fault != nil {
		t.Errorf("off refuses: %s", fault)
	}
}

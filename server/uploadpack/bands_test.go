package uploadpack

import (
	"bufio"
	"bytes"
	"context"
	"fmt"
	"strings"
	"testing"

	"gitpoold/pktline"
)

var background = context.Background()

// TestRefusalsInBands has fetches that are refused at several places, with bands from the beginning on and without.
func TestRefusalsInBands(t *testing.T) {
	m, commits := smallRepository()
	want, unknown := fmt.Sprintf("want %v\n", commits[4]), strings.Repeat("1", 40)
	for says, arguments := range map[string][]string{
		"upload-pack: not our ref " + unknown:                                {"want " + unknown + "\n", "done\n"},
		"upload-pack: malformed want line":                                   {"want x\n"},
		"upload-pack: `nonsense` is not served":                              {"nonsense\n"},
		"filter 'x' not supported":                                           {want, "filter x\n", "done\n"},
		"no commits selected for shallow requests":                           {want, "deepen-since 9000000000\n", "done\n"},
		"git upload-pack: ambiguous deepen-not: nowhere":                     {want, "deepen-not nowhere\n", "done\n"},
		pktline.ErrTooMuch.Error():                                           {want, strings.Repeat("x", 60_000), "many"},
		"git upload-pack: deepen and deepen-since (or deepen-not) cannot be": {want, "deepen 1\n", "deepen-since 5\n", "done\n"},
	} {
		for _, bands := range [][]string{{}, {"sideband-all\n"}} {
			asked := append(append([]string{"command=fetch\n", "|"}, bands...), arguments...)
			request := lines(asked...)
			if arguments[len(arguments)-1] == "many" {
				request = append(request, bytes.Repeat(lines(arguments[1]), mostLines/60_000+1)...)
			}
			answer := string(serve(m, 2, append(request, lines("")...)))
			begins := "ERR "
			if len(bands) > 0 {
				begins = "\x03"
			}
			last := answer[strings.LastIndex(answer, begins):]
			if !strings.HasPrefix(last, begins+says) || len(bands) > 0 == strings.Contains(answer, "ERR ") {
				t.Errorf("%q: %.300q", says, answer)
			}
		}
	}
}

// TestARefusedRequestLeavesNoBands has two requests of one session, of which the first one has bands and is refused.
func TestARefusedRequestLeavesNoBands(t *testing.T) {
	var out bytes.Buffer
	w := pktline.NewWriter(&out)
	m, _ := smallRepository()
	refused := bufio.NewReader(bytes.NewReader(lines("command=fetch\n", "|", "sideband-all\n", "want x\n", "")))
	if err := (Server{}).Serve(background, m, refused, w, 2, true); err == nil {
		t.Fatal("it is not refused")
	}
	out.Reset()
	listed := bufio.NewReader(bytes.NewReader(lines("command=ls-refs\n", "|", "ref-prefix HEAD\n", "")))
	err := Server{}.Serve(background, m, listed, w, 2, true)
	if err != nil || !strings.HasPrefix(out.String(), "0032"+m.refs[0].Target.String()+" HEAD\n") {
		t.Fatalf("%v: %q", err, out.String())
	}
}

// progress is what an answer has on the second band.
func progress(t *testing.T, answer []byte) (told string) {
	t.Helper()
	reader := pktline.NewReader(bufio.NewReader(bytes.NewReader(answer)), mostLines)
	for {
		packet, err := reader.Next()
		if err != nil {
			return told
		}
		if len(packet.Text) > 0 && packet.Text[0] == pktline.ProgressChannel {
			told += string(packet.Text[1:]) + "\n"
		}
	}
}

// TestProgress asks for packs of 15 objects and of none, with progress and without.
func TestProgress(t *testing.T) {
	m, commits := smallRepository()
	want := fmt.Sprintf("want %v\n", commits[4])
	fifteen := "Enumerating objects: 15, done.\nCounting objects: 100% (15/15), done.\nTotal 15 (delta 0), reused 0 (delta 0), pack-reused 0\n"
	none := "Total 0 (delta 0), reused 0 (delta 0), pack-reused 0\n"
	for _, it := range []struct {
		version int
		request []byte
		says    string
	}{
		{2, lines("command=fetch\n", "|", want, "done\n", ""), fifteen},
		{2, lines("command=fetch\n", "|", want, "no-progress\n", "done\n", ""), ""},
		{2, lines("command=fetch\n", "|", want, fmt.Sprintf("have %v\n", commits[4]), "done\n", ""), none},
		{0, lines(fmt.Sprintf("want %v side-band-64k\n", commits[4]), "", "done\n"), fifteen},
		{0, lines(fmt.Sprintf("want %v side-band no-progress\n", commits[4]), "", "done\n"), ""},
		{1, lines(fmt.Sprintf("want %v side-band\n", commits[4]), "", "done\n"), fifteen},
	} {
		if told := progress(t, serve(m, it.version, it.request)); told != it.says {
			t.Errorf("%q: %q", it.request, told)
		}
	}
}

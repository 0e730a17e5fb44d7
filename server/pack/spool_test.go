package pack

import (
	"bytes"
	"errors"
	"math/rand"
	"testing"
)

// TestASpoolGivesWhatWasPut puts pieces of all sizes, and reads them and parts of them in any order, also between puts.
func TestASpoolGivesWhatWasPut(t *testing.T) {
	s, err := newSpool(t.TempDir(), nil)
	if err != nil {
		t.Fatal(err)
	}
	defer s.file.Close()
	random := rand.New(rand.NewSource(1))
	var all []byte
	sizes := []int{0, 1, 100, 3000, spoolBlock - 1, spoolBlock, spoolBlock + 1, 3*spoolBlock + 7, spoolPage - 1, spoolPage, spoolPage + 1}
	for round := 0; round < 2000; round++ {
		piece := make([]byte, sizes[random.Intn(len(sizes))])
		random.Read(piece)
		if round%4 > 0 {
			piece = piece[:len(piece)%3001]
		}
		if err := s.append(piece); err != nil {
			t.Fatal(err)
		}
		if all = append(all, piece...); s.end != int64(len(all)) {
			t.Fatal(s.end, len(all))
		}
		for k := 0; k < 3; k++ {
			at := random.Intn(len(all) + 1)
			size := random.Intn(sizes[random.Intn(len(sizes))] + 1)
			if size > len(all)-at {
				size = len(all) - at
			}
			if got, err := s.read(int64(at), int64(size)); err != nil || !bytes.Equal(got, all[at:at+size]) {
				t.Fatalf("round %d, %d bytes at %d: %v", round, size, at, err)
			}
		}
		if len(s.pages) > spoolPages {
			t.Fatal(len(s.pages))
		}
	}
	if len(all) < 2*spoolPages*spoolPage {
		t.Fatal("all of it was in memory", len(all))
	}
}

// TestASpoolAsksBeforeItGrows has a disk with room for so many megabytes.
func TestASpoolAsksBeforeItGrows(t *testing.T) {
	full := errors.New("full")
	for room := int64(0); room < 4; room++ {
		left := room << 20
		s, err := newSpool(t.TempDir(), func(bytes int64) error {
			if left -= bytes; left < 0 {
				return full
			}
			return nil
		})
		if err != nil {
			t.Fatal(err)
		}
		defer s.file.Close()
		for err == nil {
			err = s.append(make([]byte, 1000))
		}
		if info, _ := s.file.Stat(); err != full || info.Size() != room<<20 {
			t.Errorf("%d: %v, %v", room, err, info.Size())
		}
	}
	small, err := newSpool(t.TempDir(), func(int64) error { return full })
	if err == nil {
		defer small.file.Close()
		err = small.append(make([]byte, spoolBlock-1))
	}
	if err != nil {
		t.Error(err)
	}
}

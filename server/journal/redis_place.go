package journal

import (
	"encoding/hex"
	"errors"
	"fmt"
	"os"

	"gitpoold/regular"
)

// place is how far a server has come in a log: the number of a record, and the chain there.
type place struct {
	number uint64
	chain  Chain
}

// placeFile keeps the place beside the pool file, so that a start notices a log that has lost what was told. It is written before
// anything is told. What a crash of the machine may lose of it leaves an older place, which the log has too.
type placeFile struct{ file *os.File }

const placeForm = "%020d %064x\n"

// readPlace reads the place of a file, which need not be there.
func readPlace(path string) (found place, has bool, err error) {
	text, err := regular.Read(path)
	if errors.Is(err, os.ErrNotExist) || err == nil && len(text) == 0 {
		return found, false, nil
	}
	if err != nil {
		return found, false, err
	}
	var chain string
	if _, err = fmt.Sscanf(string(text), "%d %s\n", &found.number, &chain); err == nil {
		var bytes []byte
		if bytes, err = hex.DecodeString(chain); err == nil && len(bytes) != len(found.chain) {
			err = errors.New("the chain has another length")
		}
		copy(found.chain[:], bytes)
	}
	if err != nil {
		return found, false, fmt.Errorf("%s is no place in a log: %w", path, err)
	}
	return found, true, nil
}

// keepPlace makes the file of a place, or opens it, and writes a place into it.
func keepPlace(path string, at mark) (*placeFile, error) {
	file, err := os.OpenFile(path, os.O_RDWR|os.O_CREATE, 0o600)
	if err != nil {
		return nil, err
	}
	p := &placeFile{file}
	return p, p.write(at)
}

func (p *placeFile) write(at mark) error {
	_, err := p.file.WriteAt([]byte(fmt.Sprintf(placeForm, at.number, at.chain)), 0)
	return err
}

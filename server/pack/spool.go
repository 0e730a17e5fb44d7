package pack

import "os"

const (
	// spoolBlock is how much of a spool is written at once.
	spoolBlock = 1 << 16
	// A page is how much of a spool is read at once, and so many pages are in memory: those that were read last.
	spoolPage  = 1 << 12
	spoolPages = 1 << 10
	// spoolAsked is after how much it is asked again whether a spool may grow.
	spoolAsked = 1 << 20
)

// spool is a temporary file without a name. Bytes are appended, and read where they were put. Objects that stand beside each other in a
// pack, as the versions of a file mostly do, are read with one call.
type spool struct {
	file  *os.File
	tail  []byte // the block that is not full, which the file has not yet
	last  []byte // the block before it
	end   int64
	pages map[int64][]byte
	turn  [spoolPages]int64 // the numbers of the pages; next is the place of the oldest one
	next  int
	// mayGrow is asked when the file comes to `asked`, for what goes up to the next such place.
	mayGrow func(bytes int64) error
	asked   int64
}

func newSpool(folder string, mayGrow func(bytes int64) error) (*spool, error) {
	file, err := os.CreateTemp(folder, "gitpoold-push-")
	if err != nil {
		return nil, err
	}
	if err := os.Remove(file.Name()); err != nil {
		file.Close()
		return nil, err
	}
	return &spool{file: file, pages: map[int64][]byte{}, mayGrow: mayGrow}, nil
}

// append puts bytes behind all others.
func (s *spool) append(data []byte) error {
	for len(data) > 0 {
		if s.tail == nil {
			s.tail = make([]byte, 0, spoolBlock)
		}
		taken := min(len(data), spoolBlock-len(s.tail))
		s.tail = append(s.tail, data[:taken]...)
		s.end += int64(taken)
		data = data[taken:]
		if err := s.flushFull(); err != nil {
			return err
		}
	}
	return nil
}

// flushFull writes the tail if it is full. Nobody writes to the block any more then.
func (s *spool) flushFull() error {
	if len(s.tail) < spoolBlock {
		return nil
	}
	if err := s.ask(); err != nil {
		return err
	}
	if _, err := s.file.WriteAt(s.tail, s.end-spoolBlock); err != nil {
		return err
	}
	s.last, s.tail = s.tail, nil
	return nil
}

// ask asks from time to time whether the file may grow. A spool of less than a block has nothing in its file, and is not asked about.
func (s *spool) ask() error {
	if s.mayGrow == nil || s.end <= s.asked {
		return nil
	}
	s.asked += spoolAsked
	return s.mayGrow(spoolAsked)
}

// written is how much of the spool the file has: whole blocks.
func (s *spool) written() int64 { return s.end - int64(len(s.tail)) }

// read gives bytes that were put. They may be a part of a block or a page, so who keeps them for long keeps a copy.
func (s *spool) read(at, size int64) ([]byte, error) {
	written := s.written()
	if data, is := within(s.tail, at-written, size); is {
		return data, nil
	}
	if data, is := within(s.last, at-written+int64(len(s.last)), size); is {
		return data, nil
	}
	if number := at / spoolPage; (at+size-1)/spoolPage == number {
		page, err := s.page(number)
		data, _ := within(page, at%spoolPage, size)
		return data, err
	}
	return s.readAcross(at, size)
}

// within gives so many bytes at a place of a block, if they are in it.
func within(block []byte, at, size int64) (data []byte, is bool) {
	if at < 0 || at+size > int64(len(block)) {
		return nil, false
	}
	return block[at : at+size : at+size], true
}

// page gives a page of the file, in the place of the one that was read first.
func (s *spool) page(number int64) ([]byte, error) {
	if page, is := s.pages[number]; is {
		return page, nil
	}
	page := make([]byte, spoolPage)
	if _, err := s.file.ReadAt(page, number*spoolPage); err != nil {
		return nil, err
	}
	if len(s.pages) == spoolPages {
		delete(s.pages, s.turn[s.next])
	}
	s.pages[number], s.turn[s.next] = page, number
	s.next = (s.next + 1) % spoolPages
	return page, nil
}

// readAcross reads bytes that are not in one page or block.
func (s *spool) readAcross(at, size int64) ([]byte, error) {
	data := make([]byte, size)
	inFile := s.written() - at
	inFile = min(inFile, size)
	_, err := s.file.ReadAt(data[:inFile], at)
	copy(data[inFile:], s.tail)
	return data, err
}

package browse

import (
	"archive/tar"
	"archive/zip"
	"bytes"
	"context"
	"errors"
	"io"
	"io/fs"
	"strings"
	"time"

	"github.com/klauspost/compress/flate"
	"github.com/klauspost/compress/gzip"

	"gitpoold/plumbing"
)

// ErrTooMuch says that something is larger than this server reads or writes at once.
var ErrTooMuch = errors.New("this has more files, bytes or commits than this server reads or writes at once")

// Archive is an archive of a tree, as git-archive(1) writes it. It has no member outside of its Prefix: an entry whose name is empty, `.` or `..`
// or has a slash is left out, a second one of the same name in a directory, and in a zip one that has a backslash.
type Archive struct {
	Format Format
	Prefix string // of all paths; it ends in a slash
	Commit string // the name of the commit, or "" where there is none
	When   time.Time
	// Files and Bytes are the most that it may have.
	Files int
	Bytes int64
}

// Format is a form of archives: the end of their names.
type Format string

// The formats of archives.
const (
	Tar   Format = "tar"
	TarGz Format = "tar.gz"
	Zip   Format = "zip"
)

// Formats are all of them.
var Formats = []Format{Tar, TarGz, Zip}

// MediaType is the Content-Type of archives of a format.
func (f Format) MediaType() string {
	return map[Format]string{Tar: "application/x-tar", TarGz: "application/gzip", Zip: "application/zip"}[f]
}

// IsCompressed tells whether it takes a processor to write one.
func (f Format) IsCompressed() bool { return f != Tar }

// member is what stands in an archive: a directory, a file or a symbolic link, whose target is its contents.
type member struct {
	path     string
	mode     fs.FileMode
	contents []byte
}

// packer writes the members of an archive.
type packer interface {
	add(member) error
	Close() error
}

// Write writes the archive of a tree. It holds a few megabytes at once, or one object where that is larger. An error leaves the
// archive cut off.
func (a Archive) Write(ctx context.Context, s Source, to io.Writer, tree plumbing.Name) error {
	packers := map[Format]func(Archive, io.Writer) (packer, error){Tar: Archive.tar, TarGz: Archive.tarGz, Zip: Archive.zip}
	packing, err := packers[a.Format](a, to)
	if err != nil {
		return err
	}
	w := &archiver{Archive: a, source: s, to: packing}
	if err := w.folder(ctx, a.Prefix, tree); err != nil {
		return err
	}
	return w.to.Close()
}

type archiver struct {
	Archive
	source Source
	to     packer
	files  int
	bytes  int64 // of contents and of paths
}

// folder writes a directory: its own line, its files, and the directories in it.
func (w *archiver) folder(ctx context.Context, path string, tree plumbing.Name) error {
	o, err := Object(ctx, w.source, tree)
	if err != nil {
		return err
	}
	entries, err := Entries(o)
	if err != nil {
		return err
	}
	entries = w.inside(entries)
	if err := w.add(member{path, fs.ModeDir | 0o775, nil}); err != nil {
		return err
	}
	if err := w.blobs(ctx, path, entries); err != nil {
		return err
	}
	for _, it := range entries {
		switch {
		case it.IsTree():
			err = w.folder(ctx, path+it.Path+"/", it.Name)
		case it.IsGitlink():
			err = w.add(member{path + it.Path + "/", fs.ModeDir | 0o775, nil})
		}
		if err != nil {
			return err
		}
	}
	return nil
}

// inside leaves out the entries that would lead out of their directory, or through one another.
func (w *archiver) inside(entries []plumbing.Entry) (left []plumbing.Entry) {
	bad := "/"
	if w.Format == Zip {
		bad = `/\`
	}
	isTaken := map[string]bool{"": true, ".": true, "..": true}
	for _, it := range entries {
		if !isTaken[it.Path] && !strings.ContainsAny(it.Path, bad) {
			isTaken[it.Path] = true
			left = append(left, it)
		}
	}
	return left
}

func (w *archiver) blobs(ctx context.Context, path string, entries []plumbing.Entry) error {
	var blobs []plumbing.Entry
	var names []plumbing.Name
	for _, it := range entries {
		if it.IsBlob() {
			blobs, names = append(blobs, it), append(names, it.Name)
		}
	}
	at := 0
	return w.source.Objects(ctx, names, func(o plumbing.Object) error {
		at++
		return w.file(path, blobs[at-1], o.Contents)
	})
}

func (w *archiver) file(path string, it plumbing.Entry, contents []byte) error {
	mode := fs.FileMode(0o664)
	switch {
	case it.IsLink() && len(contents) > 0 && bytes.IndexByte(contents, 0) < 0:
		mode = fs.ModeSymlink | 0o777
	case it.IsExecutable():
		mode = 0o775
	}
	return w.add(member{path + it.Path, mode, contents})
}

func (w *archiver) add(it member) error {
	w.files++
	if w.bytes += int64(len(it.path) + len(it.contents)); w.files > w.Files || w.bytes > w.Bytes {
		return ErrTooMuch
	}
	return w.to.add(it)
}

// tarPacker writes a tar, and then closes what it is written through.
type tarPacker struct {
	*tar.Writer
	through io.Closer
	when    time.Time
}

func (a Archive) tar(to io.Writer) (packer, error) { return a.tarThrough(to, io.NopCloser(nil)) }

func (a Archive) tarGz(to io.Writer) (packer, error) {
	through, err := gzip.NewWriterLevel(to, gzip.BestSpeed)
	if err != nil {
		return nil, err
	}
	return a.tarThrough(through, through)
}

func (a Archive) tarThrough(to io.Writer, through io.Closer) (packer, error) {
	p := &tarPacker{tar.NewWriter(to), through, a.When}
	if a.Commit == "" {
		return p, nil
	}
	return p, p.WriteHeader(&tar.Header{Typeflag: tar.TypeXGlobalHeader, Name: "pax_global_header", PAXRecords: map[string]string{"comment": a.Commit}})
}

func (p *tarPacker) add(it member) error {
	head := &tar.Header{Typeflag: tar.TypeReg, Name: it.path, Mode: int64(it.mode.Perm()), Size: int64(len(it.contents)), ModTime: p.when,
		Uname: "root", Gname: "root"}
	switch it.mode.Type() {
	case fs.ModeDir:
		head.Typeflag = tar.TypeDir
	case fs.ModeSymlink:
		head.Typeflag, head.Size, head.Linkname, it.contents = tar.TypeSymlink, 0, string(it.contents), nil
	}
	if err := p.WriteHeader(head); err != nil {
		return err
	}
	_, err := p.Write(it.contents)
	return err
}

// Close ends the archive.
func (p *tarPacker) Close() error {
	if err := p.Writer.Close(); err != nil {
		return err
	}
	return p.through.Close()
}

type zipPacker struct {
	*zip.Writer
	when time.Time
}

func (a Archive) zip(to io.Writer) (packer, error) {
	p := &zipPacker{zip.NewWriter(to), a.When}
	p.RegisterCompressor(zip.Deflate, func(to io.Writer) (io.WriteCloser, error) { return flate.NewWriter(to, flate.BestSpeed) })
	return p, p.SetComment(a.Commit)
}

func (p *zipPacker) add(it member) error {
	head := &zip.FileHeader{Name: it.path, Modified: p.when, Method: zip.Deflate}
	head.SetMode(it.mode)
	if len(it.contents) == 0 || it.mode.Type() != 0 {
		head.Method = zip.Store
	}
	to, err := p.CreateHeader(head)
	if err == nil && len(it.contents) > 0 {
		_, err = to.Write(it.contents)
	}
	return err
}

package pages

import (
	"context"
	"html/template"
	"time"

	"gitpoold/browse"
	"gitpoold/plumbing"
)

// toBlame is what is read to find who brought the lines of a file.
var toBlame = browse.Bounds{Objects: 12000, Bytes: 256 << 20, Time: 3 * time.Second}

// blame shows of each line of a file which commit brought it.
func (v Visit) blame(ctx context.Context) (Answer, error) {
	f, err := v.find(ctx)
	if err != nil {
		return Answer{}, err
	}
	if f.object.Kind != plumbing.Blob || f.commit == nil || v.Place.Path == "" {
		return Answer{}, browse.ErrKind
	}
	page := v.blobPage(f)
	page.History = v.historyOf(v.Place, f.commit)
	if page.Why == "" {
		found, err := browse.Blame(ctx, v.Repository, f.commit, v.Place.Path, toBlame)
		if err != nil {
			return Answer{}, err
		}
		page.Code, page.Note = v.codeOf(ctx, string(f.object.Contents))
		page.Code.IsChoosing = false
		page.Count = several(page.Code.Count, "line", "lines")
		page.Note += v.accuse(page.Code.Lines, found)
	}
	return v.page("blame", v.blobFrame(page.Name, f), page)
}

// accuse writes at the first line of each run who brought it, and says of how many lines that is not known.
func (v Visit) accuse(lines []codeLine, found []browse.Blamed) string {
	older, isEven := 0, false
	for at := range lines {
		by := found[at].Commit
		if by == nil {
			older++
		}
		lines[at].class = " "
		if at == 0 || by != found[at-1].Commit {
			isEven = !isEven
			lines[at].by = v.blamed(found[at])
			lines[at].class = " first"
		}
		if lines[at].by = `<span class="by">` + lines[at].by + `</span>`; isEven {
			lines[at].class += " even"
		}
	}
	if older == 0 {
		return ""
	}
	return several(older, "line is", "lines are") + " of commits further back than this page looks. "
}

// blamed says who brought a run of lines, with a way to the file before that.
func (v Visit) blamed(it browse.Blamed) template.HTML {
	if it.Commit == nil {
		return "further back"
	}
	var w lines
	by := v.lineOf(v.Place, it.Commit)
	w.add(`<a href="`, by.URL, `" title="`, by.Subject, `">`, by.Short, `</a> `)
	if len(it.Commit.Parents) > 0 {
		before := v.Place.At(Blame, it.Commit.Parents[0].String(), it.Path).URL()
		w.add(`<a href="`, before, `" title="Blame before `, by.Short, `" aria-label="Blame before `, by.Short, `">↶</a> `)
	} else {
		w.add("  ")
	}
	if when := by.When; when != nil {
		w.add(`<time datetime="`, when.Machine, `" title="`, when.Full, `">`, when.Ago, `</time>`)
	}
	w.add(` <bdi>`, by.Author, `</bdi>`)
	return w.HTML()
}

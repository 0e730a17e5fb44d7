package fsck

import "fmt"

// ID is the id of a message of git-fsck(1), "fsck messages".
type ID string

// Level says what becomes of an object that a message is about: git-fsck(1), "fsck messages".
type Level int

// The levels, the mildest first. An object with an error is refused. A message of Fatal is always an error.
const (
	Ignore Level = iota
	Info
	Warn
	Error
	Fatal
)

var levelWords = map[string]Level{"ignore": Ignore, "warn": Warn, "error": Error}

// The ids of the messages, in the order of fsck-msgids of git's documentation, each kind by itself.
const (
	BadDate                ID = "badDate"
	BadDateOverflow        ID = "badDateOverflow"
	BadEmail               ID = "badEmail"
	BadFilemode            ID = "badFilemode"
	BadName                ID = "badName"
	BadObjectSha1          ID = "badObjectSha1"
	BadParentSha1          ID = "badParentSha1"
	BadTagName             ID = "badTagName"
	BadTimezone            ID = "badTimezone"
	BadTree                ID = "badTree"
	BadTreeSha1            ID = "badTreeSha1"
	BadType                ID = "badType"
	DuplicateEntries       ID = "duplicateEntries"
	EmptyName              ID = "emptyName"
	ExtraHeaderEntry       ID = "extraHeaderEntry"
	FullPathname           ID = "fullPathname"
	GitattributesBlob      ID = "gitattributesBlob"
	GitattributesLarge     ID = "gitattributesLarge"
	GitattributesLineLong  ID = "gitattributesLineLength"
	GitattributesSymlink   ID = "gitattributesSymlink"
	GitignoreSymlink       ID = "gitignoreSymlink"
	GitmodulesBlob         ID = "gitmodulesBlob"
	GitmodulesName         ID = "gitmodulesName"
	GitmodulesParse        ID = "gitmodulesParse"
	GitmodulesPath         ID = "gitmodulesPath"
	GitmodulesSymlink      ID = "gitmodulesSymlink"
	GitmodulesUpdate       ID = "gitmodulesUpdate"
	GitmodulesURL          ID = "gitmodulesUrl"
	HasDot                 ID = "hasDot"
	HasDotdot              ID = "hasDotdot"
	HasDotgit              ID = "hasDotgit"
	MailmapSymlink         ID = "mailmapSymlink"
	MissingAuthor          ID = "missingAuthor"
	MissingCommitter       ID = "missingCommitter"
	MissingEmail           ID = "missingEmail"
	MissingNameBeforeEmail ID = "missingNameBeforeEmail"
	MissingObject          ID = "missingObject"
	MissingSpaceBeforeDate ID = "missingSpaceBeforeDate"
	MissingSpaceBeforeMail ID = "missingSpaceBeforeEmail"
	MissingTag             ID = "missingTag"
	MissingTagEntry        ID = "missingTagEntry"
	MissingTaggerEntry     ID = "missingTaggerEntry"
	MissingTree            ID = "missingTree"
	MissingType            ID = "missingType"
	MissingTypeEntry       ID = "missingTypeEntry"
	MultipleAuthors        ID = "multipleAuthors"
	NulInCommit            ID = "nulInCommit"
	NulInHeader            ID = "nulInHeader"
	NullSha1               ID = "nullSha1"
	TreeNotSorted          ID = "treeNotSorted"
	UnterminatedHeader     ID = "unterminatedHeader"
	ZeroPaddedDate         ID = "zeroPaddedDate"
	ZeroPaddedFilemode     ID = "zeroPaddedFilemode"
)

// usual has the level of each message that is no error by itself.
var usual = map[ID]Level{
	NulInHeader: Fatal, UnterminatedHeader: Fatal,
	EmptyName: Warn, FullPathname: Warn, HasDot: Warn, HasDotdot: Warn, HasDotgit: Warn, NullSha1: Warn, ZeroPaddedFilemode: Warn, NulInCommit: Warn,
	BadFilemode: Info, GitmodulesParse: Info, GitignoreSymlink: Info, GitattributesSymlink: Info, MailmapSymlink: Info, BadTagName: Info,
	MissingTaggerEntry: Info,
	ExtraHeaderEntry:   Ignore,
}

// errors lists the messages that are errors by themselves.
var errorIDs = []ID{BadDate, BadDateOverflow, BadEmail, BadName, BadObjectSha1, BadParentSha1, BadTimezone, BadTree, BadTreeSha1, BadType, DuplicateEntries,
	GitattributesBlob, GitattributesLarge, GitattributesLineLong, GitmodulesBlob, GitmodulesName, GitmodulesPath, GitmodulesSymlink, GitmodulesUpdate,
	GitmodulesURL, MissingAuthor, MissingCommitter, MissingEmail, MissingNameBeforeEmail, MissingObject, MissingSpaceBeforeDate, MissingSpaceBeforeMail,
	MissingTag, MissingTagEntry, MissingTree, MissingType, MissingTypeEntry, MultipleAuthors, TreeNotSorted, ZeroPaddedDate}

// Finding is one message about an object.
type Finding struct {
	ID    ID
	Level Level
	Text  string
}

// String gives the message as git prints it after the name of the object: the id and a sentence.
func (f Finding) String() string { return fmt.Sprintf("%s: %s", f.ID, f.Text) }

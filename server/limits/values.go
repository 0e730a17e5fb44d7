package limits

import (
	"fmt"
	"net/url"
	"sort"
	"strconv"
	"strings"
	"time"

	"gitpoold/access"
	"gitpoold/configfile"
	"gitpoold/fsck"
	"gitpoold/tenants"
)

// limit is one limit by its name: how it is read, and where it goes.
type limit struct {
	name  string
	first string
	about string
	set   func(v *Values, word string) error
}

func count(into func(*Values) *int) func(*Values, string) error {
	return func(v *Values, word string) (err error) {
		*into(v), err = strconv.Atoi(word)
		if err == nil && *into(v) < 1 {
			err = fmt.Errorf("%s is below 1", word)
		}
		return err
	}
}

func countOrNone(into func(*Values) *int) func(*Values, string) error {
	return func(v *Values, word string) error {
		if word == "0" {
			*into(v) = 0
			return nil
		}
		return count(into)(v, word)
	}
}

func bytes(into func(*Values) *int64) func(*Values, string) error {
	return func(v *Values, word string) (err error) {
		*into(v), err = ParseBytes(word)
		return err
	}
}

func span(into func(*Values) *time.Duration) func(*Values, string) error {
	return func(v *Values, word string) (err error) {
		*into(v), err = time.ParseDuration(word)
		if err == nil && *into(v) < time.Millisecond {
			err = fmt.Errorf("%s is below 1ms", word)
		}
		return err
	}
}

func setPublicURL(v *Values, word string) error {
	v.PublicURL = ""
	if word == "-" {
		return nil
	}
	it, err := url.Parse(word)
	if err != nil || it.Scheme != "https" && it.Scheme != "http" || it.Host == "" || it.User != nil || it.RawQuery != "" || it.Fragment != "" {
		return fmt.Errorf("`%s` is no address such as https://git.example.org", word)
	}
	v.PublicURL = strings.TrimRight(it.String(), "/")
	return nil
}

func spanOrNone(into func(*Values) *time.Duration) func(*Values, string) error {
	return func(v *Values, word string) error {
		if word == "0" {
			*into(v) = 0
			return nil
		}
		return span(into)(v, word)
	}
}

var all = []limit{
	{"connections", "1024", "connections at once",
		count(func(v *Values) *int { return &v.Connections })},
	{"connections-by-address", "128", "connections at once from one address",
		count(func(v *Values) *int { return &v.PerAddress })},
	{"requests-by-user", "64", "requests and sessions of one user at once",
		count(func(v *Values) *int { return &v.PerUser })},
	{"handshake", "20s", "the time until a client has said what it wants",
		span(func(v *Values) *time.Duration { return &v.Handshake })},
	{"idle", "60s", "the time that a client may be silent, or take nothing",
		span(func(v *Values) *time.Duration { return &v.Idle })},
	{"request", "1h", "the time of one request in all",
		span(func(v *Values) *time.Duration { return &v.Request })},
	{"drain", "30s", "the time that requests have to end when the server stops",
		span(func(v *Values) *time.Duration { return &v.Drain })},
	{"step", "5m", "the time that the child has for one answer; then it is replaced",
		span(func(v *Values) *time.Duration { return &v.Step })},
	{"hook", "30s", "the time that a hook has for one push; then it is ended",
		span(func(v *Values) *time.Duration { return &v.Hook })},
	{"mirror", "1h", "the time that a mirror has for one run; then it is ended",
		span(func(v *Values) *time.Duration { return &v.Mirror })},
	{"mirror-bytes", "4G", "the bytes of the repository that a mirror has on the disk",
		bytes(func(v *Values) *int64 { return &v.MirrorBytes })},
	{"mirrors-at-once", "4", "mirrors that run at once; of these at most half failed the last time",
		count(func(v *Values) *int { return &v.MirrorsAtOnce })},
	{"request-bytes", "1G", "the bytes that one request may bring",
		bytes(func(v *Values) *int64 { return &v.RequestBytes })},
	{"lfs-bytes", "1G", "the bytes of one file of Git LFS",
		bytes(func(v *Values) *int64 { return &v.LFSBytes })},
	{"public-url", "-", "the address at which users find the server over http, such as https://git.example.org; - is as its options say",
		setPublicURL},
	{"quota", "1G", "the bytes that a tenant may have; 0 is no limit",
		bytes(func(v *Values) *int64 { return &v.Quota })},
	{userBytesName, "4G", "the bytes that a user may have in all tenants that it made; 0 is no limit",
		bytes(func(v *Values) *int64 { return &v.OwnedBytes })},
	{userTenantsName, "1000", "the tenants that a user may make by a first push; 0 is no limit",
		countOrNone(func(v *Values) *int { return &v.OwnedTenants })},
	{dailyBytesName, "0", "the bytes that a user may push and fetch in a day of UTC; 0 is no limit",
		bytes(func(v *Values) *int64 { return &v.DailyBytes })},
	{dailyChildName, "0", "the time of the child that a user's pushes and fetches may take in a day of UTC; 0 is no limit",
		spanOrNone(func(v *Values) *time.Duration { return &v.DailyChild })},
	{"journal-bytes", "256M", "the bytes of the journal that ask for a save",
		bytes(func(v *Values) *int64 { return &v.JournalBytes })},
	{"save-every", "1h", "the time after which what has changed is saved",
		span(func(v *Values) *time.Duration { return &v.SaveEvery })},
	{"second-child", "64M", "the size of a pool file from which on a second child answers questions while the first one saves; 0 is never",
		bytes(func(v *Values) *int64 { return &v.SecondChild })},
	{"stream-bytes", "1G", "the bytes of one stream over ssh",
		bytes(func(v *Values) *int64 { return &v.StreamBytes })},
	{"stream-age", "1h", "the time that a stream over ssh may be open",
		span(func(v *Values) *time.Duration { return &v.StreamAge })},
	{"streams-by-user", "4", "streams over ssh of one user at once, those that wait for their turn among them",
		count(func(v *Values) *int { return &v.StreamsByUser })},
	{"streams-by-tenant", "16", "streams over ssh of one tenant at once: one is open, and the others wait for their turn",
		count(func(v *Values) *int { return &v.StreamsByTenant })},
	{"answer-bytes", "256M", "the bytes of answers over ssh, of pages and of lists of refs that wait until a user takes them, and so of one answer; as many again of objects above 128 KiB in fetches",
		bytes(func(v *Values) *int64 { return &v.AnswerBytes })},
	{"line-bytes", "64M", "the bytes of Git's lines that the requests of one user hold at once: refs and options of pushes, wants and haves of fetches",
		bytes(func(v *Values) *int64 { return &v.LineBytes })},
	{"fetch-bytes", "1G", "the bytes that the fetches of one user hold at once: 64 for each object that they list, and 256 for each commit that they walk and each tag that may follow",
		bytes(func(v *Values) *int64 { return &v.FetchBytes })},
	{"spool-bytes", "2G", "the bytes of temporary files, and of the lists of what their packs have, that the pushes of one user have at once",
		bytes(func(v *Values) *int64 { return &v.SpoolBytes })},
	{"disk-reserve", "256M", "the bytes of the disk, at most a quarter of it, that pushes leave to the journal; 0 is none",
		bytes(func(v *Values) *int64 { return &v.DiskReserve })},
	{"pack-cache", "0", "the bytes of packs that git makes smaller for clones, kept beside the pool; 0 keeps none",
		bytes(func(v *Values) *int64 { return &v.PackCache })},
	{"frame-idle", "10m", "the time that a client of frames may be silent with a stream open",
		span(func(v *Values) *time.Duration { return &v.FrameIdle })},
	{fsckName, "hosting", "which objects are refused that git could keep: strict is as receive.fsckObjects of git, hosting lets in what old histories have, off all",
		func(v *Values, word string) (err error) {
			v.Fsck, err = fsck.Named(word)
			return err
		}},
	{"indexing", "off", "whether search engines may list the repositories that everyone may read: on or off",
		func(v *Values, word string) error {
			v.IsIndexed = word == "on"
			if word != "on" && word != "off" {
				return fmt.Errorf("%s is neither on nor off", word)
			}
			return nil
		}},
	{"child-memory", "0", "the bytes of its own that the child may take, without the pool file that it maps; 0 is no limit",
		bytes(func(v *Values) *int64 { return &v.ChildMemory })},
}

// The limits that a tenant, or a user, may have of its own, and those of the messages of git-fsck(1).
const (
	quotaName       = "quota"
	fsckName        = "fsck"
	fsckFront       = "fsck."
	userBytesName   = "user-bytes"
	userTenantsName = "user-tenants"
	dailyBytesName  = "daily-bytes"
	dailyChildName  = "daily-child"
)

// ParseBytes reads a number of bytes, in all or with K, M, G or T for powers of 1,024.
func ParseBytes(word string) (int64, error) {
	digits, factor := word, int64(1)
	if at := strings.IndexAny(word, "KMGT"); at >= 0 && at == len(word)-1 {
		digits = word[:at]
		factor = 1 << (10 * (1 + strings.IndexByte("KMGT", word[at])))
	}
	found, err := strconv.ParseInt(digits, 10, 64)
	if err != nil || found < 0 || found > 1<<62/factor {
		return 0, fmt.Errorf("`%s` is no number of bytes: digits, and K, M, G or T", word)
	}
	return found * factor, nil
}

func find(name string) (limit, error) {
	for _, it := range all {
		if it.name == name {
			return it, nil
		}
	}
	return limit{}, fmt.Errorf("there is no limit `%s`", name)
}

// Defaults gives the limits of an empty file.
func Defaults() Values {
	v := Values{Quotas: map[string]int64{}, UserBytes: map[string]int64{}, UserChild: map[string]time.Duration{}, UserOwnedBytes: map[string]int64{},
		UserOwnedTenants: map[string]int{}}
	for _, it := range all {
		if err := it.set(&v, it.first); err != nil {
			panic(err)
		}
	}
	return v
}

func read(path string) (Values, error) {
	v := Defaults()
	lines, err := configfile.Read(path)
	for _, words := range lines {
		if err := v.take(words); err != nil {
			return v, fmt.Errorf("%s: %w", path, err)
		}
	}
	for _, it := range v.levels {
		v.Fsck, _ = v.Fsck.With(it[0], it[1])
	}
	return v, err
}

// takeLevel takes the level of one message of git-fsck(1).
func (v *Values) takeLevel(id, level string) error {
	_, err := v.Fsck.With(id, level)
	if err == nil {
		v.levels = append(v.levels, [2]string{id, level})
	}
	return err
}

// take takes one line of the file.
func (v *Values) take(words []string) error {
	if len(words) == 3 {
		return v.takeOwn(words)
	}
	if len(words) != 2 {
		return fmt.Errorf("`%s` is no line NAME VALUE", strings.Join(words, " "))
	}
	if id, isMessage := strings.CutPrefix(words[0], fsckFront); isMessage {
		return v.takeLevel(id, words[1])
	}
	it, err := find(words[0])
	if err != nil {
		return err
	}
	if err := it.set(v, words[1]); err != nil {
		return fmt.Errorf("%s: %w", words[0], err)
	}
	return nil
}

// takeOwn takes the limit of one tenant or one user.
func (v *Values) takeOwn(words []string) error {
	var own Values
	it, err := find(words[0])
	if err == nil {
		err = it.set(&own, words[2])
	}
	if err != nil {
		return fmt.Errorf("%s: %w", words[0], err)
	}
	switch {
	case words[0] == quotaName && tenants.ValidName(words[1]):
		v.Quotas[words[1]] = own.Quota
	case words[0] == userBytesName && isOwner(words[1]):
		v.UserOwnedBytes[words[1]] = own.OwnedBytes
	case words[0] == userTenantsName && isOwner(words[1]):
		v.UserOwnedTenants[words[1]] = own.OwnedTenants
	case words[0] == dailyBytesName && access.ValidUser(words[1]):
		v.UserBytes[words[1]] = own.DailyBytes
	case words[0] == dailyChildName && access.ValidUser(words[1]):
		v.UserChild[words[1]] = own.DailyChild
	default:
		return fmt.Errorf("`%s` is no line quota TENANT VALUE, or user-bytes, user-tenants, daily-bytes or daily-child, USER and VALUE",
			strings.Join(words, " "))
	}
	return nil
}

// isOwner tells whether this may be the owner of tenants: a user, or all visitors together.
func isOwner(name string) bool { return access.ValidUser(name) || name == tenants.Visitors }

// Row is one limit, as the operator sees it.
type Row struct{ Name, Value, Default, About string }

// Rows gives all limits of a folder's file, those of single tenants and users last.
func Rows(path string) ([]Row, error) {
	lines, err := configfile.Read(path)
	if err != nil {
		return nil, err
	}
	said := map[string]string{}
	var own []Row
	for _, words := range lines {
		switch {
		case len(words) == 2 && strings.HasPrefix(words[0], fsckFront):
			own = append(own, Row{Name: words[0], Value: words[1], About: "the level of one message of git-fsck(1)"})
		case len(words) == 2:
			said[words[0]] = words[1]
		case len(words) == 3:
			own = append(own, Row{Name: words[0] + " " + words[1], Value: words[2], About: "of its own"})
		}
	}
	var rows []Row
	for _, it := range all {
		row := Row{it.name, it.first, it.first, it.about}
		if value, has := said[it.name]; has {
			row.Value = value
		}
		rows = append(rows, row)
	}
	sort.Slice(own, func(i, k int) bool { return own[i].Name < own[k].Name })
	return append(rows, own...), nil
}

// Set sets a limit, or that of one tenant or user by `NAME TENANT VALUE` or `NAME USER VALUE`. The value `default` takes the line out.
func Set(path string, words ...string) error {
	v := Defaults()
	name, value := words[:len(words)-1], words[len(words)-1]
	if _, err := find(name[0]); err != nil && !strings.HasPrefix(name[0], fsckFront) {
		return err
	}
	if value != "default" {
		if err := v.take(words); err != nil {
			return err
		}
	}
	return configfile.Change(path, func(lines []string) (left []string, err error) {
		for _, line := range lines {
			if has := strings.Fields(line); len(has) != len(words) || strings.Join(has[:len(name)], " ") != strings.Join(name, " ") {
				left = append(left, line)
			}
		}
		if value != "default" {
			left = append(left, strings.Join(words, " "))
		}
		return left, nil
	})
}

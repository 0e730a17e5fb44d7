package mirrors

import (
	"bytes"
	"context"
	"errors"
	"fmt"
	"net/url"
	"os"
	"path/filepath"
	"slices"
	"sort"
	"strings"
	"syscall"
	"time"

	"gitpoold/access"
	"gitpoold/gitrun"
	"gitpoold/objects"
	"gitpoold/pktline"
	"gitpoold/plumbing"
	"gitpoold/services"
	"gitpoold/tenants"
)

// outcome is what a run did.
type outcome struct{ refs, changed int }

// run carries one run of a mirror out, within its time.
func (k *Keeper) run(ctx context.Context, m Mirror, mayDelete bool) (did outcome, err error) {
	ctx, stop := context.WithTimeout(ctx, k.gateway.Limits.Get().Mirror)
	defer stop()
	scheme, err := schemeOf(m.URL)
	if err != nil {
		return did, err
	}
	tenant, err := k.gateway.Pool.Tenant(m.Tenant)
	if err == nil && m.Kind == Pull {
		err = k.gateway.Access.Blocked("", m.Tenant, access.Write)
	}
	if err != nil {
		return did, err
	}
	r := &run{Keeper: k, repository: k.repository(m, scheme), m: m, tenant: tenant, mayDelete: mayDelete}
	if err := r.mayGrow(); err != nil {
		return did, err
	}
	if err := r.prepare(ctx, m); err != nil {
		return did, err
	}
	if m.Kind == Push {
		did, err = r.push(ctx)
	} else {
		did, err = r.pull(ctx)
	}
	if errors.Is(err, errLarge) {
		// What is too large now is too large for the next run too.
		_ = os.RemoveAll(r.path)
	}
	return did, err
}

// memory is how much memory each process of git may have.
const memory = 1 << 30

// repository gives that of a mirror.
func (k *Keeper) repository(m Mirror, scheme string) repository {
	return repository{path: filepath.Join(k.folder, m.key()), folder: filepath.Dir(k.folder), url: m.URL, scheme: scheme, silence: k.silence,
		every: time.Second, memory: memory, mostBytes: k.gateway.Limits.Get().MirrorBytes,
		mayGrow: func() error { return k.gateway.Limits.MayGrow(k.gateway.Folder) }}
}

// run is one run of a mirror.
type run struct {
	*Keeper
	repository
	m         Mirror
	tenant    tenants.Tenant
	mayDelete bool
}

// fronts are the refs that are mirrored. Hosts have others of their own, which they do not let be changed.
var fronts = []string{plumbing.Branches, plumbing.Tags, "refs/notes/"}

func isMirrored(ref string) bool {
	return slices.ContainsFunc(fronts, func(it string) bool { return strings.HasPrefix(ref, it) })
}

// refspecs let each mirrored ref be what it is at the other side.
func refspecs() (all []string) {
	for _, it := range fronts {
		all = append(all, "+"+it+"*:"+it+"*")
	}
	return all
}

// Bounds of what git prints: names of refs, and reports of pushes.
const (
	mostListed = 16 << 20
	mostReport = 32 << 20
	mostTidied = 8 << 10 // by gc, which is to say nothing
)

// pull lets the tenant be as the other host is.
func (r *run) pull(ctx context.Context) (did outcome, err error) {
	head, err := r.listRemote(ctx)
	if err != nil {
		return did, err
	}
	fetch := append([]string{"fetch", "--progress", "--prune", "--no-tags", "--no-write-fetch-head", "--end-of-options", r.url}, refspecs()...)
	if err := r.git(ctx, command{words: fetch, most: mostReport}); err != nil {
		return did, err
	}
	wanted, err := r.refs(ctx)
	if err != nil {
		return did, err
	}
	now, tenantHead, err := r.tenant.Refs(ctx)
	if err != nil {
		return did, err
	}
	changed, gone := compare(now, wanted)
	did.refs = len(wanted)
	if err := r.mayLose(now, len(gone)); err != nil {
		return did, err
	}
	head = branchOf(head, tenantHead, wanted)
	if did.changed = len(changed) + len(gone); did.changed > 0 {
		err = r.bring(ctx, changed, gone, head)
	} else {
		err = r.setHead(ctx, head)
	}
	r.pack(ctx)
	return did, err
}

// branchOf gives the branch that HEAD of the tenant is to name: that of the other host, or the one that it names, if the host has it; else the first
// one. It is nothing where there is no branch.
func branchOf(host, tenant string, wanted map[string]plumbing.Name) (first string) {
	for _, it := range []string{host, tenant} {
		if _, has := wanted[it]; has {
			return it
		}
	}
	for it := range wanted {
		if strings.HasPrefix(it, plumbing.Branches) && (first == "" || it < first) {
			first = it
		}
	}
	return first
}

// bring pushes what was fetched to the tenant. A branch goes only after HEAD names another one, and a ref in whose place others come goes before
// these.
func (r *run) bring(ctx context.Context, changed, gone []string, head string) error {
	made := r.pushChanged(ctx, changed)
	err := r.setHead(ctx, head)
	taken := r.delete(ctx, gone)
	if made.refused > 0 && len(gone) > 0 {
		made = r.pushChanged(ctx, changed)
	}
	if failed := made.and(taken).err(); failed != nil {
		return failed
	}
	return err
}

// pushChanged pushes all refs together, or, where that is refused for something in the pack, each by itself.
func (r *run) pushChanged(ctx context.Context, changed []string) (did report) {
	if len(changed) > 0 {
		did = r.pushTo(ctx, refspecs()...)
	}
	if did.isWhole && len(changed) > 1 {
		did = r.pushAlone(ctx, changed)
	}
	return did
}

// delete takes refs from the tenant.
func (r *run) delete(ctx context.Context, gone []string) (did report) {
	for len(gone) > 0 && ctx.Err() == nil {
		count := len(gone)
		count = min(count, mostAtOnce)
		did = did.and(r.pushTo(ctx, deletions(gone[:count])...))
		gone = gone[count:]
	}
	return did
}

// mostAtOnce is how many refs one push deletes: they stand in its command line.
const mostAtOnce = 500

func deletions(refs []string) (all []string) {
	for _, it := range refs {
		all = append(all, ":"+it)
	}
	return all
}

// mostAlone is how many refs are pushed one by one.
const mostAlone = 500

// pushAlone pushes each ref by itself: an object of one of them, which a tenant cannot keep, refuses all that come with it.
func (r *run) pushAlone(ctx context.Context, changed []string) (did report) {
	for at, it := range changed {
		if at == mostAlone || ctx.Err() != nil {
			did.refused += len(changed) - at
			break
		}
		did = did.and(r.pushTo(ctx, "+"+it+":"+it))
	}
	return did
}

// listRemote asks the other host for its refs, and gives the branch that its HEAD names, or nothing. A host that has too many is refused before
// anything of it is kept.
func (r *run) listRemote(ctx context.Context) (head string, err error) {
	var out bytes.Buffer
	words := []string{"ls-remote", "--symref", "--end-of-options", r.url, "HEAD"}
	for _, it := range fronts {
		words = append(words, it+"*")
	}
	if err := r.git(ctx, command{words: words, out: &out, most: mostListed}); err != nil {
		return "", err
	}
	count := 0
	for _, line := range strings.Split(out.String(), "\n") {
		name, ref, _ := strings.Cut(line, "\t")
		if target := strings.TrimPrefix(name, "ref: "); target != name && ref == "HEAD" {
			head = target
		}
		if isMirrored(ref) && !strings.HasSuffix(ref, "^{}") {
			count++
		}
	}
	if count > objects.MostRefs {
		return "", errOutput
	}
	if count == 0 {
		return "", errors.New("the other host has no branch, tag or note; nothing was changed")
	}
	return head, nil
}

// refs gives the refs of the repository.
func (r *run) refs(ctx context.Context) (map[string]plumbing.Name, error) {
	var out bytes.Buffer
	words := append([]string{"for-each-ref", "--format=%(objectname) %(refname)"}, fronts...)
	if err := r.git(ctx, command{words: words, out: &out, most: mostListed}); err != nil {
		return nil, err
	}
	all := map[string]plumbing.Name{}
	for _, line := range strings.Split(strings.TrimSuffix(out.String(), "\n"), "\n") {
		digits, ref, _ := strings.Cut(line, " ")
		if name, is := plumbing.ParseName(digits); is {
			all[ref] = name
		}
	}
	if len(all) > objects.MostRefs {
		return nil, errOutput
	}
	return all, nil
}

// compare gives the refs of a tenant that are to change or to come, and those that are to go.
func compare(now []tenants.Ref, wanted map[string]plumbing.Name) (changed, gone []string) {
	for ref, target := range wanted {
		if tenants.Refs(now).Target(ref) != target {
			changed = append(changed, ref)
		}
	}
	sort.Strings(changed)
	for _, it := range now {
		if _, has := wanted[it.Name]; isMirrored(it.Name) && !has {
			gone = append(gone, it.Name)
		}
	}
	return changed, gone
}

// fewRefs is how many refs a host may take away whatever the tenant has.
const fewRefs = 10

// mayLose refuses to let most of what the tenant has go, unless the operator has said so: a host may have lost it, or be somebody else's now. The
// first run of a mirror deletes nothing: what the tenant has then is of no mirror.
func (r *run) mayLose(now []tenants.Ref, gone int) error {
	mirrored := 0
	for _, it := range now {
		if isMirrored(it.Name) {
			mirrored++
		}
	}
	isFew := gone < mirrored && (gone <= fewRefs || gone <= mirrored/2)
	if r.mayDelete || gone == 0 || isFew && !r.isFirst() {
		return nil
	}
	return fmt.Errorf("the other host does not have %d of the %d refs here; nothing was changed; "+
		"`gitpoold mirror DIR run %s --deletions` deletes them here too", gone, mirrored, r.m.Tenant)
}

// isFirst tells whether the mirror has had no run yet that went well.
func (r *run) isFirst() bool {
	r.mutex.Lock()
	defer r.mutex.Unlock()
	return r.states[r.m.key()].Good.IsZero()
}

// setHead lets HEAD of the tenant name the branch that the other host's names, if the tenant has it.
func (r *run) setHead(ctx context.Context, head string) error {
	refs, now, err := r.tenant.Refs(ctx)
	if err != nil || head == "" || head == now || tenants.Refs(refs).Target(head) == (plumbing.Name{}) {
		return err
	}
	return r.tenant.SetHead(ctx, head)
}

// push lets the other host be as the tenant is.
func (r *run) push(ctx context.Context) (did outcome, err error) {
	fetch := append([]string{"fetch", "--progress", "--prune", "--no-tags", "--no-write-fetch-head", localURL}, refspecs()...)
	if err := r.overSocket(ctx, services.UploadPack, command{words: fetch, most: mostReport}); err != nil {
		return did, err
	}
	refs, err := r.refs(ctx)
	if err != nil {
		return did, err
	}
	if did.refs = len(refs); did.refs == 0 {
		return did, errors.New("the tenant has no branch, tag or note; nothing was pushed")
	}
	var out bytes.Buffer
	push := append([]string{"push", "--progress", "--porcelain", "--prune", "--end-of-options", r.url}, refspecs()...)
	err = r.git(ctx, command{words: push, out: &out, most: mostReport})
	told := reported(out.String(), err)
	did.changed = told.changed
	r.pack(ctx)
	return did, told.err()
}

// pushTo pushes to the tenant what these refspecs say.
func (r *run) pushTo(ctx context.Context, words ...string) report {
	var out bytes.Buffer
	push := append([]string{"push", "--progress", "--porcelain", localURL}, words...)
	err := r.overSocket(ctx, services.ReceivePack, command{words: push, out: &out, most: mostReport})
	return reported(out.String(), err)
}

// report is what git prints of pushes with --porcelain: how many refs changed, and how many were refused, with the first one and why. IsWhole says
// that all of one push was refused for something in its pack.
type report struct {
	changed, refused int
	first            string
	isWhole          bool
	failed           error
}

func reported(text string, failed error) (told report) {
	for _, line := range strings.Split(text, "\n") {
		words := strings.SplitN(line, "\t", 3)
		switch {
		case len(words) < 3 || len(words[0]) != 1:
		case words[0] == "!":
			if told.refused++; told.refused == 1 {
				_, ref, _ := strings.Cut(words[1], ":")
				told.isWhole = strings.HasSuffix(words[2], "(unpacker error)")
				told.first = told.reason(ref, words[2], failed)
			}
		case words[0] != "=":
			told.changed++
		}
	}
	if told.refused == 0 {
		told.failed = failed
	}
	return told
}

// reason says why a ref was refused. Of a push that was refused as a whole, git says it elsewhere.
func (r report) reason(ref, words string, failed error) string {
	if r.isWhole && failed != nil {
		words = failed.Error()
	}
	return gitrun.Visible(ref + ": " + words)
}

// and adds the report of a further push.
func (r report) and(more report) report {
	r.changed += more.changed
	if r.refused += more.refused; r.first == "" {
		r.first = more.first
	}
	if r.failed == nil {
		r.failed = more.failed
	}
	return r
}

// err says what was refused, or nothing.
func (r report) err() error {
	if r.refused > 0 {
		return fmt.Errorf("%d refs were refused, the first is %s", r.refused, r.first)
	}
	return r.failed
}

// mostPacks is how many packs the repository may have before git makes one of them.
var mostPacks = 40

// pack makes one pack of many. Where that fails, the packs stay.
func (r *run) pack(ctx context.Context) {
	packs, _ := filepath.Glob(filepath.Join(r.path, "objects", "pack", "*.pack"))
	if len(packs) > mostPacks {
		_ = r.git(ctx, command{words: []string{"gc", "--quiet", "--prune=now"}, most: mostTidied})
	}
}

// localURL is the tenant, as git names the first further file that it has.
const localURL = "fd::3"

// overSocket runs git with a service of the tenant at the other end of a socket.
func (r *run) overSocket(ctx context.Context, service string, c command) error {
	own, gits, err := pair()
	if err != nil {
		return err
	}
	served := make(chan error, 1)
	serving, stop := context.WithCancel(ctx)
	defer stop()
	context.AfterFunc(serving, func() { _ = own.Close() })
	go func() { served <- r.serve(serving, service, own) }()
	c.local = gits
	err = r.git(ctx, c)
	gits.Close()
	stop()
	<-served
	return err
}

// serve answers one use of a service. What a mirror pushes is judged as what users push, and told to the log, hooks and push mirrors.
func (r *run) serve(ctx context.Context, service string, conn *os.File) error {
	defer conn.Close()
	use := services.Use{Gateway: r.gateway, Service: service, User: userOf(r.m.Tenant), Tenant: r.tenant, In: conn, Out: pktline.NewWriter(conn)}
	if err := use.Advertise(ctx); err != nil {
		return err
	}
	return use.Serve(ctx, false)
}

// pair gives the two ends of a socket.
func pair() (one, other *os.File, err error) {
	ends, err := syscall.Socketpair(syscall.AF_UNIX, syscall.SOCK_STREAM|syscall.SOCK_CLOEXEC, 0)
	if err != nil {
		return nil, nil, err
	}
	// The server's end has deadlines and can be closed under a Read.
	if err := syscall.SetNonblock(ends[0], true); err != nil {
		syscall.Close(ends[0])
		syscall.Close(ends[1])
		return nil, nil, err
	}
	return os.NewFile(uintptr(ends[0]), "tenant"), os.NewFile(uintptr(ends[1]), "git"), nil
}

// credentials are a mirror's user and password as git-credential-store(1) keeps them.
func credentials(m Mirror) string {
	address, err := url.Parse(m.URL)
	if err != nil {
		return ""
	}
	return (&url.URL{Scheme: address.Scheme, Host: address.Host, User: url.UserPassword(m.User, m.Password)}).String() + "\n"
}

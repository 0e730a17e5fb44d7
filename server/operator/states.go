package operator

import (
	"fmt"
	"strings"

	"gitpoold/child"
	"gitpoold/journal"
	"gitpoold/store"
)

// together gives how all shards stand as if they were one: counts are added up, all have to answer, and one journal that is broken is told.
func together(states []store.State) (all store.State) {
	all = states[0]
	for _, it := range states[1:] {
		all.Steps += it.Steps
		all.Pushes += it.Pushes
		all.Refused += it.Refused
		all.GivenUp += it.GivenUp
		all.Saves += it.Saves
		all.FailedSaves += it.FailedSaves
		all.Recoveries += it.Recoveries
		all.Streams += it.Streams
		all.JournalBytes += it.JournalBytes
		all.Records += it.Records
		all.IsAnswering = all.IsAnswering && it.IsAnswering
		all.JournalBroken = all.JournalBroken || it.JournalBroken
		if it.LastSave.Before(all.LastSave) {
			all.LastSave = it.LastSave
		}
		all.Log = logsTogether(all.Log, it.Log)
	}
	return all
}

func logsTogether(one, other *journal.RedisCounts) *journal.RedisCounts {
	if one == nil || other == nil {
		return one
	}
	return &journal.RedisCounts{Appends: one.Appends + other.Appends, Connections: one.Connections + other.Connections,
		Seconds: one.Seconds + other.Seconds, WaitingBytes: one.WaitingBytes + other.WaitingBytes,
		IsAnswering: one.IsAnswering && other.IsAnswering}
}

// tellShards has a line for each shard.
func tellShards(text *strings.Builder, states []store.State) {
	fmt.Fprintf(text, "%-18s %d\n", "shards", len(states))
	for at, it := range states {
		fmt.Fprintf(text, "%-18s answering %v child %d child-bytes %d child-file-bytes %d tenants %d bytes %d streams %d journal-bytes %d journal-broken %v last-save %s\n",
			fmt.Sprintf("shard-%d", at+1), it.IsAnswering, it.ChildPid, memoryOf(it).Anonymous, memoryOf(it).File, it.Tenants, it.TenantBytes, it.Streams,
			it.JournalBytes, it.JournalBroken, when(it.LastSave))
	}
}

// childrenOf names the processes of the children.
func childrenOf(states []store.State) string {
	var pids []string
	for _, it := range states {
		pids = append(pids, fmt.Sprint(it.ChildPid))
	}
	return strings.Join(pids, " ")
}

// memoryOf is how much memory the children of some shards have, and the second one while there is one.
func memoryOf(states ...store.State) (all child.Memory) {
	for _, it := range states {
		for _, pid := range []int{it.ChildPid, it.SecondPid} {
			one := child.MemoryOf(pid)
			all.Anonymous += one.Anonymous
			all.File += one.File
		}
	}
	return all
}

// tellEnds has a line for each shard whose child has ended although nobody told it to.
func tellEnds(line func(name string, value any), states []store.State) {
	for at, it := range states {
		if it.LastEnd != "" {
			line("child-ended", fmt.Sprintf("%s in shard %d: %s", when(it.EndedAt), at+1, it.LastEnd))
		}
	}
}

package main

import (
	"errors"
	"fmt"
	"os"
	"path/filepath"
	"strconv"
	"strings"
	"time"

	"gitpoold/journal"
	"gitpoold/regular"
	"gitpoold/shards"
)

// logWait is how long a push waits for a Redis that does not answer, where `--log-wait` says nothing else.
const logWait = 30 * time.Second

// logOptions reads what a line says of logs in Redis, one for each shard, and gives none where the journal is in files.
func logOptions(l line) (all []journal.Options, err error) {
	if len(l.logs) == 0 {
		for _, flag := range []string{"--log-wait", "--replicas", "--log-unsynced"} {
			if _, has := l.flags[flag]; has {
				return nil, fmt.Errorf("`%s` goes with `--log`", flag)
			}
		}
		return nil, nil
	}
	options := journal.Options{Wait: logWait, Tell: func(string, ...any) {}}
	_, options.IsUnsynced = l.flags["--log-unsynced"]
	if text, has := l.flags["--log-wait"]; has {
		if options.Wait, err = time.ParseDuration(text); err != nil || options.Wait <= 0 {
			return nil, fmt.Errorf("`--log-wait %s` is no time, such as 30s", text)
		}
	}
	if text, has := l.flags["--replicas"]; has {
		if options.Replicas, err = strconv.Atoi(text); err != nil || options.Replicas < 0 {
			return nil, fmt.Errorf("`--replicas %s` is no number", text)
		}
	}
	password, err := redisPassword(filepath.Join(l.folder, "redis-password"))
	if err != nil {
		return nil, err
	}
	seen := map[string]bool{}
	for _, text := range l.logs {
		if options.Address, err = journal.ParseAddress(text, password); err != nil {
			return nil, err
		}
		if seen[options.Address.String()] {
			return nil, fmt.Errorf("`--log %s` is there twice; each shard has a log of its own", text)
		}
		seen[options.Address.String()] = true
		all = append(all, options)
	}
	return all, nil
}

// followOptions reads what a line says of another server whose logs this one follows, and gives nil where it writes its own.
func followOptions(l line) (*shards.Follow, error) {
	if _, has := l.flags["--follow"]; !has {
		for _, flag := range followFlags[1:] {
			if _, has := l.flags[flag]; has {
				return nil, fmt.Errorf("`%s` goes with `--follow`", flag)
			}
		}
		return nil, nil
	}
	if len(l.logs) == 0 {
		return nil, errors.New("`--follow` goes with `--log`")
	}
	follow := &shards.Follow{Leader: l.flags["--leader"]}
	if text, has := l.flags["--take-over"]; has {
		var err error
		if follow.TakeOver, err = time.ParseDuration(text); err != nil || follow.TakeOver < leastTakeOver {
			return nil, fmt.Errorf("`--take-over %s` is no time of %v or more, such as 10s", text, leastTakeOver)
		}
	}
	return follow, nil
}

// leastTakeOver is a few times that between two signs of life.
const leastTakeOver = 2 * time.Second

// redisPassword reads the password of Redis, which is empty where there is no such file.
func redisPassword(path string) (string, error) {
	text, err := regular.Read(path)
	if errors.Is(err, os.ErrNotExist) {
		return "", nil
	}
	return strings.TrimRight(string(text), "\r\n"), err
}

// stopAtOnce ends the run: nothing more may be told. The child ends with it.
func stopAtOnce(why error) {
	fmt.Fprintf(os.Stderr, "gitpoold: %v\n", why)
	os.Exit(statusOf(why))
}

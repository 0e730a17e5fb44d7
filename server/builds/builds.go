// Package builds tells how the program gitpool was made that the server runs.
package builds

import (
	"context"
	"crypto/sha256"
	"encoding/hex"
	"fmt"
	"io"
	"os"
	"os/exec"
	"path/filepath"
	"strings"
	"time"
)

// answers is how long a program may take to say its version. The one of a checkout may be compiled first, which takes longer.
const answers = 20 * time.Second

// Of gives what a program says of itself with --version, a line each: `version: 0.4.0`, and then how it was made. An installed executable says its
// version alone, and the file `build` beside it has the rest.
func Of(program string) ([]string, error) {
	ctx, stop := context.WithTimeout(context.Background(), answers)
	defer stop()
	text, err := exec.CommandContext(ctx, program, "--version").Output()
	if err != nil {
		return nil, fmt.Errorf("%s does not say its version: %w", program, err)
	}
	lines := strings.Split(strings.TrimRight(string(text), "\n"), "\n")
	name, version, isVersion := strings.Cut(lines[0], " ")
	if !isVersion || name != "gitpool" {
		return nil, fmt.Errorf("%s is no gitpool", program)
	}
	lines[0] = "version: " + version
	if len(lines) > 1 {
		return lines, nil
	}
	return append(lines, beside(program)...), nil
}

// beside reads the file `build` of an installed executable, and says so where the executable is another one.
func beside(program string) (lines []string) {
	own, err := filepath.EvalSymlinks(program)
	if err != nil {
		return nil
	}
	text, err := os.ReadFile(filepath.Join(filepath.Dir(own), "build"))
	if err != nil {
		return nil
	}
	digest, err := digestOf(own)
	for _, line := range strings.Split(strings.TrimSpace(string(text)), "\n") {
		if value, is := strings.CutPrefix(line, "sha256: "); !is {
			lines = append(lines, line)
		} else if err == nil && value == digest {
			return lines
		}
	}
	return []string{"proved: no, for it is not the executable that was installed"}
}

func digestOf(path string) (string, error) {
	file, err := os.Open(path)
	if err != nil {
		return "", err
	}
	defer file.Close()
	sum := sha256.New()
	if _, err := io.Copy(sum, file); err != nil {
		return "", err
	}
	return hex.EncodeToString(sum.Sum(nil)), nil
}

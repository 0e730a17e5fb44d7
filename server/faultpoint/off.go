//go:build !faultpoints

// Package faultpoint marks the places at which a test ends the server, its child or both. Without the build tag `faultpoints` its
// calls do nothing and cost nothing.
package faultpoint

// Enabled tells whether this build has fault points.
const Enabled = false

// SetChild tells which process is the child.
func SetChild(pid int) {}

// SetSecond tells which process is the second child, 0 for none.
func SetSecond(pid int) {}

// Here is a fault point.
func Here(name string) {}

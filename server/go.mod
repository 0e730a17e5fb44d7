// For gopls, govulncheck and go vet. The server itself is built from Debian's packages, without network and without modules: see build.
module gitpoold

go 1.23

require (
	github.com/gomodule/redigo v1.8.3
	github.com/klauspost/compress v1.15.12
	github.com/yuin/goldmark v1.5.4
	golang.org/x/crypto v0.25.0
	golang.org/x/sync v0.1.0
)

require golang.org/x/sys v0.22.0 // indirect

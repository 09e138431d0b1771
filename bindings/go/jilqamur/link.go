//go:build !jilqamur_pkgconfig

package jilqamur

// The header is beside this file or in the repository. The library is the object beside this file whose name ends with
// system and processor, which `go mod vendor` takes along, as it does all files of this folder.

// #cgo CFLAGS: -I${SRCDIR} -I${SRCDIR}/../../c/include
import "C"

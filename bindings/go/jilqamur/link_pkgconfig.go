//go:build jilqamur_pkgconfig

package jilqamur

// #cgo pkg-config: jilqamur
import "C"

//go:build !cgo

package cukvashe

// The library is C and assembly. Without cgo the compiler says so by the name that it does not find here.
var _ = cukvashe_is_compiled_by_cgo__set_CGO_ENABLED_to_1_and_install_a_C_compiler

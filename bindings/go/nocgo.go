//go:build !cgo

package capvet

// Without cgo this is the only file, and its name for what is missing is the error of the build.
var _ = capvet_needs_cgo_and_a_C_compiler__build_with_CGO_ENABLED_1

//go:build jeihpal_installed

package jeihpal

/*
#cgo pkg-config: jeihpal
*/
import "C"

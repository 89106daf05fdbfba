//go:build !jeihpal_installed

package jeihpal

/*
#cgo CFLAGS: -I${SRCDIR}/../include
#cgo LDFLAGS: ${SRCDIR}/../out/libjeihpal.a
*/
import "C"

// Package krl asks the lists that sshd takes as RevokedKeys about keys and certificates, by libkrl:
// key revocation lists (KRLs) and plain files of keys.
//
// Let a key in where a check returns nil, and in no other case. Signatures, the dates of a
// certificate and whether its authority is trusted are not checked here.
package krl

/*
#cgo pkg-config: krl
#include <stdlib.h>
#include <krl.h>
*/
import "C"

import (
	"errors"
	"strings"
	"sync"
	"unsafe"
)

// ErrRevoked says that the list revokes the key or the certificate.
var ErrRevoked = errors.New("revoked")

// A Fault says why there is no answer. Its number is one of krl.h.
type Fault int32

func (fault Fault) Error() string {
	var text [65]C.char
	C.krl_fault_text(C.int32_t(fault), &text[0], C.size_t(len(text)))
	return C.GoString(&text[0])
}

// Check reads the whole content of a list, a KRL or a plain file of keys, and asks it about a public
// key or a certificate, as golang.org/x/crypto/ssh gives it by PublicKey.Marshal.
func Check(list, blob []byte) error {
	return answer(C.krl_check_any(start(list), C.size_t(len(list)), start(blob), C.size_t(len(blob))))
}

// The words for the reasons of krl_why, from its lowest bit on.
var reasons = []string{
	"its key", "the SHA-1 of its key", "the SHA-256 of its key",
	"its authority", "the SHA-1 of its authority", "the SHA-256 of its authority",
	"its serial number", "its serial number under all authorities",
	"its key ID", "its key ID under all authorities",
}

// Why says for a log by what a list revokes a key or a certificate. Ask Check whether it does.
func Why(list, blob []byte) string {
	bits := C.krl_why(start(list), C.size_t(len(list)), start(blob), C.size_t(len(blob)))
	if bits < 0 {
		return "a line of a plain list"
	}
	var found []string
	for at, words := range reasons {
		if bits&(1<<at) != 0 {
			found = append(found, words)
		}
	}
	return strings.Join(found, ", ")
}

// A List is a KRL that is read once and asked often. Many goroutines may ask it at once.
type List struct {
	lock   sync.RWMutex
	handle C.krl
}

// Load reads the whole content of a list. Close gives its memory back.
func Load(content []byte) (*List, error) {
	list := &List{handle: C.krl{at: C.malloc(C.krl_size())}}
	C.krl_init(list.handle.at)
	if err := answer(C.krl_load(&list.handle, start(content), C.size_t(len(content)))); err != nil {
		list.Close()
		return nil, err
	}
	return list, nil
}

// Check asks the list as Check does. A list that is closed lets nobody in.
func (list *List) Check(blob []byte) error {
	list.lock.RLock()
	defer list.lock.RUnlock()
	if list.handle.at == nil {
		return Fault(C.KRL_NOT_LOADED)
	}
	return answer(C.krl_ask(&list.handle, start(blob), C.size_t(len(blob))))
}

// Close gives the memory of the list back.
func (list *List) Close() {
	list.lock.Lock()
	defer list.lock.Unlock()
	if list.handle.at != nil {
		C.krl_unload(&list.handle)
		C.free(list.handle.at)
		list.handle.at = nil
	}
}

func answer(number C.int32_t) error {
	switch number {
	case C.KRL_OK:
		return nil
	case C.KRL_REVOKED:
		return ErrRevoked
	}
	return Fault(number)
}

// start is where the bytes are, which is nowhere if there are none.
func start(bytes []byte) *C.uint8_t {
	if len(bytes) == 0 {
		return nil
	}
	return (*C.uint8_t)(unsafe.Pointer(&bytes[0]))
}

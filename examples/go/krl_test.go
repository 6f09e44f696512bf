package krl

import (
	"encoding/base64"
	"encoding/binary"
	"errors"
	"sync"
	"testing"
)

func text(parts ...string) string {
	spelled := ""
	for _, part := range parts {
		length := make([]byte, 4)
		binary.BigEndian.PutUint32(length, uint32(len(part)))
		spelled += string(length) + part
	}
	return spelled
}

// key is an Ed25519 key of 32 equal bytes.
func key(value byte) []byte {
	bytes := make([]byte, 32)
	for at := range bytes {
		bytes[at] = value
	}
	return []byte(text("ssh-ed25519", string(bytes)))
}

// list is a list that revokes this key.
func list(revoked []byte) []byte {
	header := "SSHKRL\n\x00\x00\x00\x00\x01" + string(make([]byte, 24)) + text("", "")
	return []byte(header + "\x02" + text(text(string(revoked))))
}

func TestCheck(t *testing.T) {
	one, two := key(1), key(2)
	if err := Check(list(one), two); err != nil {
		t.Error("another key:", err)
	}
	if err := Check(list(one), one); !errors.Is(err, ErrRevoked) {
		t.Error("a revoked key:", err)
	}
	if err := Check(list(one)[:60], two); err != Fault(-103) || err.Error() != "krl 3 EndsEarly" {
		t.Error("a truncated list:", err)
	}
	if err := Check(list(one), nil); err == nil || errors.Is(err, ErrRevoked) {
		t.Error("no key:", err)
	}
	if err := Check(nil, two); err != nil {
		t.Error("a plain list without a key:", err)
	}
	plain := []byte("ssh-ed25519 " + base64.StdEncoding.EncodeToString(one))
	if err := Check(plain, one); !errors.Is(err, ErrRevoked) {
		t.Error("a key of a plain list:", err)
	}
	if err := Check([]byte("garbage"), two); err != Fault(-117) {
		t.Error("a plain list with a line that is no key:", err)
	}
}

func TestWhy(t *testing.T) {
	one, two := key(1), key(2)
	for _, it := range []struct{ found, wanted string }{
		{Why(list(one), one), "its key"},
		{Why(list(one), two), ""},
		{Why([]byte("# a plain list"), one), "a line of a plain list"},
	} {
		if it.found != it.wanted {
			t.Errorf("%q instead of %q", it.found, it.wanted)
		}
	}
}

func TestList(t *testing.T) {
	one, two := key(1), key(2)
	if _, err := Load(list(one)[:60]); err != Fault(-103) {
		t.Error("a truncated list:", err)
	}
	loaded, err := Load(list(one))
	if err != nil {
		t.Fatal(err)
	}
	var group sync.WaitGroup
	for number := 0; number < 8; number++ {
		group.Add(1)
		go func() {
			defer group.Done()
			if err := loaded.Check(two); err != nil {
				t.Error("another key:", err)
			}
			if err := loaded.Check(one); !errors.Is(err, ErrRevoked) {
				t.Error("a revoked key:", err)
			}
		}()
	}
	group.Wait()
	loaded.Close()
	loaded.Close()
	if err := loaded.Check(two); err != Fault(-2) {
		t.Error("a closed list:", err)
	}
}

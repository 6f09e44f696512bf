// Server is an SSH server that lets in the keys of an authorized_keys file and the certificates of
// some authorities, but none that a list revokes.
//
//	go mod tidy && go build ./server
//	./server PORT HOST_KEY authorized_keys authorities revoked.krl
//
// It listens on the loopback, and says "let in" to each client that asks it to run a command. Your
// own server needs the code before the comment "The server": it decides about the key.
package main

import (
	"bytes"
	"errors"
	"fmt"
	"log"
	"net"
	"os"
	"strings"

	"golang.org/x/crypto/ssh"
	"yezhirop.example/krl"
)

// keys reads the keys of a file in the form of authorized_keys. Lines with options are skipped,
// since this server knows none.
func keys(name string) (map[string]bool, error) {
	found := map[string]bool{}
	rest, err := os.ReadFile(name)
	for err == nil && len(bytes.TrimSpace(rest)) > 0 {
		var key ssh.PublicKey
		var options []string
		key, _, options, rest, err = ssh.ParseAuthorizedKey(rest)
		if err == nil && len(options) == 0 {
			found[string(key.Marshal())] = true
		}
	}
	return found, err
}

// fingerprint is that of a key, or of the key of a certificate, as sshd logs it.
func fingerprint(key ssh.PublicKey) string {
	if certificate, is := key.(*ssh.Certificate); is {
		key = certificate.Key
	}
	return ssh.FingerprintSHA256(key)
}

// shown is the name of a user for the log. A client may send any bytes.
func shown(user string) string {
	return strings.Map(func(it rune) rune {
		if it <= ' ' || it > '~' {
			return '?'
		}
		return it
	}, user)
}

type decision func(ssh.ConnMetadata, ssh.PublicKey) (*ssh.Permissions, error)

// decides lets in a key or a certificate, or not. The list is read at each login, so a new one
// counts immediately. A list that cannot be read lets nobody in.
func decides(allowed, authorities map[string]bool, revoked string) decision {
	certificates := &ssh.CertChecker{
		IsUserAuthority: func(key ssh.PublicKey) bool { return authorities[string(key.Marshal())] },
		UserKeyFallback: func(_ ssh.ConnMetadata, key ssh.PublicKey) (*ssh.Permissions, error) {
			if !allowed[string(key.Marshal())] {
				return nil, errors.New("no such key")
			}
			return &ssh.Permissions{}, nil
		},
	}
	return func(client ssh.ConnMetadata, key ssh.PublicKey) (*ssh.Permissions, error) {
		list, err := os.ReadFile(revoked)
		if err == nil {
			err = krl.Check(list, key.Marshal())
		}
		if err == krl.ErrRevoked {
			err = fmt.Errorf("%w by %s", err, krl.Why(list, key.Marshal()))
		}
		if err != nil {
			log.Printf("%s: user %s, key %s: %v", revoked, shown(client.User()), fingerprint(key), err)
			return nil, err
		}
		return certificates.Authenticate(client, key)
	}
}

// The server.
func serve(connection net.Conn, config *ssh.ServerConfig) {
	defer connection.Close()
	_, channels, requests, err := ssh.NewServerConn(connection, config)
	if err != nil {
		return
	}
	go ssh.DiscardRequests(requests)
	for offered := range channels {
		channel, asked, err := offered.Accept()
		if err != nil {
			return
		}
		for request := range asked {
			isCommand := request.Type == "exec"
			request.Reply(isCommand, nil)
			if isCommand {
				channel.Write([]byte("let in\n"))
				channel.SendRequest("exit-status", false, make([]byte, 4))
				channel.Close()
			}
		}
	}
}

func main() {
	log.SetFlags(0)
	if len(os.Args) != 6 {
		log.Fatal("usage: server PORT HOST_KEY authorized_keys authorities revoked.krl")
	}
	allowed, err := keys(os.Args[3])
	if err != nil {
		log.Fatal(err)
	}
	authorities, err := keys(os.Args[4])
	if err != nil {
		log.Fatal(err)
	}
	content, err := os.ReadFile(os.Args[2])
	if err != nil {
		log.Fatal(err)
	}
	host, err := ssh.ParsePrivateKey(content)
	if err != nil {
		log.Fatal(err)
	}
	config := &ssh.ServerConfig{PublicKeyCallback: decides(allowed, authorities, os.Args[5])}
	config.AddHostKey(host)
	listener, err := net.Listen("tcp", "127.0.0.1:"+os.Args[1])
	if err != nil {
		log.Fatal(err)
	}
	for {
		connection, err := listener.Accept()
		if err != nil {
			log.Fatal(err)
		}
		go serve(connection, config)
	}
}

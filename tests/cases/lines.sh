# Key files: lines with options and comments, lines that hold no key, and each fault of a line.

word=$(bytes "$G" | base64 -w0)
listed='256 SHA256:+DiY3wvvV6TuJJhbpZisF/zLDA0zPMSvHdkr4UvCOqU'

# reads NAME COMMENT FORMAT: the text, with the base64 word for %s, is listed with this comment.
reads() {
  printf "$3" "$word" >key
  expect "$1" 0 "$listed $2 (ED25519)"$'\n' '' -l -f key
}
reads 'a comment' 'a b' 'ssh-ed25519 %s a b\n'
reads 'blanks within a comment' 'a  b' 'ssh-ed25519 %s   a  b \t \n'
reads 'tabs between the words' comment '\tssh-ed25519\t%s\tcomment\n'
reads 'no comment' 'no comment' 'ssh-ed25519 %s\n'
reads 'no line end' 'the last' 'ssh-ed25519 %s the last'
reads 'a Windows line end' comment 'ssh-ed25519 %s comment\r\n'
reads 'a Windows line end, no comment' 'no comment' 'ssh-ed25519 %s\r\n'
reads 'control bytes in a comment' 'a\x1bb\x09c' 'ssh-ed25519 %s a\033b\tc\n'
reads 'a zero byte and byte 127 in a comment' '\x00\x7f' 'ssh-ed25519 %s \0\177\n'
reads 'a carriage return in a comment' 'a\x0db' 'ssh-ed25519 %s a\rb\r\n'
reads 'UTF-8 in a comment' 'Zoë 日本' 'ssh-ed25519 %s Zoë 日本\n'
reads 'bytes that are no UTF-8 in a comment' $'\xff\xc0' 'ssh-ed25519 %s \377\300\n'
reads 'options' c 'no-pty,command="a b" ssh-ed25519 %s c\n'
reads 'a quote within options' 'no comment' 'command="a \\" b" ssh-ed25519 %s\n'
reads 'an escaped quote outside quotes' 'no comment' 'a\\"b ssh-ed25519 %s\n'
reads 'comment lines and empty lines' comment \
  '# first\n\n \t\r\n  # ssh-rsa\nssh-ed25519 %s comment\n#\n\n'

# refuses_line FAULT NAME FORMAT: the text's first line is refused so.
refuses_line() {
  printf "$3" "$word" >key
  expect "$2" 255 '' "ssh-keygen: key: line 1: line $1"$'\n' -l -f key
}
refuses_line '1 NoKey' 'a type name alone' 'ssh-ed25519\n'
refuses_line '1 NoKey' 'a word that is no type name' 'ssh-ed448 %s\n'
refuses_line '1 NoKey' 'a type name in capitals' 'SSH-ED25519 %s\n'
refuses_line '1 NoKey' 'two options fields' 'a b ssh-ed25519 %s\n'
refuses_line '1 NoKey' 'a blank between quotes' '"a "b c" d" ssh-ed25519 %s\n'
refuses_line '1 NoKey' 'an open quote' 'command="a ssh-ed25519 %s\n'
refuses_line '1 NoKey' 'options alone' 'no-pty\n'
refuses_line '2 Base64' 'three digits of base64' 'ssh-ed25519 AAA\n'
refuses_line '2 Base64' 'padding that is missing' 'ssh-ed25519 %sAA\n'
refuses_line '2 Base64' 'padding too many' 'ssh-ed25519 %s=\n'
refuses_line '2 Base64' 'unused bits that are not zero' 'ssh-ed25519 %sAB==\n'
refuses_line '2 Base64' 'a byte that is no digit of base64' 'ssh-ed25519 %s#\n'
refuses_line '3 WordDiffers' 'another type name' 'ssh-rsa %s\n'
refuses_line '3 WordDiffers' 'a certificate type before a plain key' \
  'ssh-ed25519-cert-v01@openssh.com %s\n'
refuses_line '3 WordDiffers' 'a blob of less than a string' 'ssh-ed25519 AAAA\n'

printf '# one\n\nssh-ed25519 %s first\n  \nssh-rsa %s second\nssh-ed25519 %s third\n' "$word" \
  "$word" "$word" >key
expect 'the lines before a fault stand' 255 "$listed first (ED25519)"$'\n' \
  $'ssh-keygen: key: line 5: line 3 WordDiffers\n' -l -f key
printf 'ssh-ed25519 %s\nssh-ed25519 %s b\n' "$word" "$word" >key
expect 'a file of two keys is listed' 0 \
  "$listed no comment (ED25519)"$'\n'"$listed b (ED25519)"$'\n' '' -l -f key
printf 'ssh-ed25519 A' >key
expect 'a fault in standard input' 255 '' $'ssh-keygen: -: line 1: line 2 Base64\n' -l -f - <key

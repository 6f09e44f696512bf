# What fish offers for the words of krl, as its help has them.

set -l audits '__fish_seen_subcommand_from audit'
set -l searches '__fish_seen_subcommand_from logins'
set -l checks '__fish_seen_subcommand_from check'
set -l shows '__fish_seen_subcommand_from show'
set -l makes '__fish_seen_subcommand_from make'
set -l diffs '__fish_seen_subcommand_from diff'
set -l none "not $audits; and not $searches; and not $checks; and not $shows; and not $makes"
set -l none "$none; and not $diffs"

complete -c krl -f
complete -c krl -n "$none" -a audit \
  -d 'Find revoked keys in files'
complete -c krl -n "$none" -a logins \
  -d 'Find logins with revoked keys in logs'
complete -c krl -n "$none" -a check \
  -d 'Check a list before it is put in force'
complete -c krl -n "$none" -a show \
  -d 'Print what lists name'
complete -c krl -n "$none" -a make \
  -d 'Make a list of texts'
complete -c krl -n "$none" -a diff -d 'Print what one list names and another does not'
complete -c krl -n "$none" -a help \
  -d 'Print the options of a task'
complete -c krl -s h -l help -d 'Print help'
complete -c krl -s V -l version -d 'Print version'
complete -c krl -n "$audits" -F
complete -c krl -n "$audits" -s f -rF -d 'The revocation list'
complete -c krl -n "$audits" -s t -rF \
  -d 'Name the lines of this text that explain a finding'
complete -c krl -n "$audits" -s a -d 'Name the keys that are not revoked as well'
complete -c krl -n "$audits" -s q -d 'Print nothing on standard output'
complete -c krl -n "$audits" -s x -d 'Stay on the file system of each directory that is named'
complete -c krl -n "$audits" -l all \
  -d 'Read every regular file of a directory, whatever its name'
complete -c krl -n "$audits" -l scan \
  -d 'Find keys anywhere in the lines of every regular file'
complete -c krl -n "$audits" -l canary -rF \
  -d 'Audit nothing unless the list revokes each key of this file'
complete -c krl -n "$audits" -l exclude -x \
  -d 'Skip files and directories of this name in a directory'
complete -c krl -n "$audits" -l json -d 'Print one JSON object on a line for each finding'
complete -c krl -n "$audits" -l label -x \
  -d 'Print this text before the name of each finding'
complete -c krl -n "$audits" -l files0-from -rF \
  -d 'Read names of files, each ended by a zero byte'
complete -c krl -n "$audits" -l sshd -rF \
  -d 'Audit what an sshd reads for keys, by this output of sshd -T'
complete -c krl -n "$audits" -l passwd -rF \
  -d 'The users of --sshd, as getent passwd prints them'
complete -c krl -n "$audits" -l command-output -rF \
  -d 'What the AuthorizedKeysCommand of --sshd printed'
complete -c krl -n "$searches" -F
complete -c krl -n "$searches" -s f -rF -d 'The revocation list'
complete -c krl -n "$searches" -s t -rF \
  -d 'Name the lines of this text that explain a login'
complete -c krl -n "$searches" -s a -d 'Name the logins that are not revoked as well'
complete -c krl -n "$searches" -s q -d 'Print nothing on standard output'
complete -c krl -n "$searches" -l json -d 'Print one JSON object on a line for each login'
complete -c krl -n "$checks" -F
complete -c krl -n "$checks" -l newer-than -rF -d 'Refuse a version below that of this list'
complete -c krl -n "$checks" -l superset-of -rF \
  -d 'Refuse a list that does not name all that this list names'
complete -c krl -n "$checks" -l max-age -xa '90m 24h 7d' \
  -d 'Refuse a list that was made longer ago than this'
complete -c krl -n "$checks" -l max-cas -x -d 'Refuse a list with more CAs than this'
complete -c krl -n "$checks" -l sshd -rF \
  -d 'Refuse a list that is not the one of the sshd of this output of sshd -T'
complete -c krl -n "$checks" -l keep -rF -d 'Refuse a list that revokes a key of this file'
complete -c krl -n "$checks" -l canary -rF \
  -d 'Refuse a list that does not revoke each key of this file'
complete -c krl -n "$checks" -l allow-empty -d 'Take a list that revokes nobody'
complete -c krl -n "$checks" -l json -d 'Print each condition as a JSON object'
complete -c krl -n "$checks" -l names -rF -d 'Name the CAs as this text of a list does'
complete -c krl -n "$checks" -l print-version -d 'Print the version of the list alone'
complete -c krl -n "$shows" -F
complete -c krl -n "$shows" -l json -d 'Print one JSON object on a line for each entry'
complete -c krl -n "$shows" -l no-name -d 'Leave out the name of each list'
complete -c krl -n "$shows" -l names -rF -d 'Name the CAs as this text of a list does'
complete -c krl -n "$makes" -F
complete -c krl -n "$makes" -s f -rF -d 'The revocation list that is made'
complete -c krl -n "$makes" -s z -x -d 'Its version'
complete -c krl -n "$makes" -l comment -x -d 'Its comment'
complete -c krl -n "$makes" -s q -d 'Do not say what was made'
complete -c krl -n "$makes" -s n -d 'Make nothing, and print what would change'
complete -c krl -n "$makes" -s u -d 'Keep what the list that is there names, and its comment'
complete -c krl -n "$makes" -l replace -d 'Do not read the list that is replaced'
complete -c krl -n "$makes" -l allow-empty -d 'Make a list that revokes nobody'
complete -c krl -n "$diffs" -F
complete -c krl -n "$diffs" -l json -d 'Print one JSON object on a line for each entry'
complete -c krl -n "$diffs" -l names -rF -d 'Name the CAs as this text of a list does'

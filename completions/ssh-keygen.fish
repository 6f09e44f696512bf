# What fish offers for the words of ssh-keygen, as its help has them.

function __krl_keygen_has --description 'Whether one of these options was given'
    for word in (commandline -opc)[2..]
        for letter in $argv
            string match -qr -- "^-[A-Za-z]*$letter" $word; and return 0
        end
    end
    return 1
end

function __krl_keygen_lacks --description 'Whether none of these options was given'
    not __krl_keygen_has $argv
end

complete -c ssh-keygen -f
complete -c ssh-keygen -n '__krl_keygen_has k Q' -F
complete -c ssh-keygen -n '__krl_keygen_lacks l L k Q E f u s z' -s h -l help -d 'Print help'
complete -c ssh-keygen -n '__krl_keygen_lacks l L k Q E f u s z' -l version \
  -d 'Print the program\'s name and version'
complete -c ssh-keygen -n '__krl_keygen_lacks l L k u s z' -s l \
  -d 'List keys; with -Q print what the list holds'
complete -c ssh-keygen -n '__krl_keygen_lacks l L k Q u s z' -s L \
  -d 'List certificates'
complete -c ssh-keygen -n '__krl_keygen_lacks l L k Q E' -s k -d 'Make a key revocation list'
complete -c ssh-keygen -n '__krl_keygen_lacks L k Q E u s z' -s Q \
  -d 'Ask a key revocation list about keys'
complete -c ssh-keygen -n '__krl_keygen_lacks k Q u s z' -s E -x -a 'md5 sha256' \
  -d 'The hash of fingerprints'
complete -c ssh-keygen -s f -rF -d 'The key file, or the revocation list'
complete -c ssh-keygen -n '__krl_keygen_lacks l L Q E u' -s u \
  -d 'Add to the list that there is'
complete -c ssh-keygen -n '__krl_keygen_lacks l L Q E' -s s -rF -a none \
  -d 'The authority\'s key file, or none for all'
complete -c ssh-keygen -n '__krl_keygen_lacks l L Q E' -s z -x -d 'The list\'s version'

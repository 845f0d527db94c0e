# SPDX-License-Identifier: MIT OR Apache-2.0
# Completion of nbt for fish.

# Whether the command is one of these: __nbt_is COMMAND..
function __nbt_is
    set -l words (commandline -opc)
    contains -- "$words[2]" $argv
end

# Whether the command is one of these, and the option isn't given yet: __nbt_takes OPTION COMMAND..
function __nbt_takes
    __nbt_is $argv[2..]; or return
    set -l words (commandline -opc)
    set -l word (commandline -ct)
    # Right behind the option the word at the cursor is its value.
    test "$words[-1]" = --$argv[1]; and not string match -q -- '-*' "$word"; and return
    not string match -qr -- "^--$argv[1](=|\$)" $words
end

# Whether so many words stand before the one at the cursor, without options: __nbt_has NUMBER
function __nbt_has
    set -l found 0
    for word in (commandline -opc)
        string match -q -- '-*' $word; or set found (math $found + 1)
    end
    test $found -eq $argv[1]
end

complete -c nbt -f
complete -c nbt -n '__nbt_has 1' -s h -l help -d 'Print help'
complete -c nbt -n '__nbt_has 1' -s V -l version -d 'Print version'
for condition in '__nbt_has 1' '__nbt_is help; and __nbt_has 2'
    complete -c nbt -n $condition -a lookup -d 'Ask a name server who holds a name'
    complete -c nbt -n $condition -a status -d 'Ask a host which names it holds'
    complete -c nbt -n $condition -a nbns -d 'Run a name server'
    complete -c nbt -n $condition -a host -d 'Hold names for this machine at a name server'
    complete -c nbt -n $condition -a release -d 'Release names that a host left at a name server'
    complete -c nbt -n $condition -a scan -d 'Ask the hosts of a network for their names'
    complete -c nbt -n $condition -a import -d 'Make a file of fixed names of other files'
    complete -c nbt -n $condition -a leases -d 'Print the list of the leases of a server'
    complete -c nbt -n $condition -a answer -d 'Print the reply of a new name server to one packet'
    complete -c nbt -n $condition -a show -d 'Print what the octets of a packet say'
    complete -c nbt -n $condition -a check -d 'Check packets against what is expected of each'
    complete -c nbt -n $condition -a sim -d 'Play a script in a network'
    complete -c nbt -n $condition -a serve -d 'Run a name server, to try the protocol'
    complete -c nbt -n $condition -a node -d 'Run a node, to try the protocol'
    complete -c nbt -n $condition -a loop -d 'Run a name server and two nodes on this machine'
end
complete -c nbt -n '__nbt_has 1' -a help -d 'Print the help of a command'

complete -c nbt -n 'not __nbt_has 1; and not __nbt_is help' -s h -l help -d 'Print help'
complete -c nbt -n '__nbt_takes server lookup' -l server -x -d 'The name server'
complete -c nbt -n '__nbt_is host release' -l server -x -d 'The name server'
complete -c nbt -n '__nbt_takes one-table host release' -l one-table -d 'All servers are addresses of one table'
complete -c nbt -n '__nbt_takes bind lookup status host release scan' -l bind -x -d 'The own address'
complete -c nbt -n '__nbt_is nbns' -l bind -x -d 'An own address'
complete -c nbt -n '__nbt_takes scope lookup status host release' -l scope -x -d 'The scope of the names'
complete -c nbt -n '__nbt_takes exact lookup status host release' -l exact -d 'Keep lower-case letters'
complete -c nbt -n '__nbt_takes tries lookup status scan' -l tries -x -a '1 2 3' -d 'How many requests to send at most'
complete -c nbt -n '__nbt_takes wait lookup status scan' -l wait -x -d 'How long to wait after the last request'
complete -c nbt -n '__nbt_takes life nbns host' -l life -x -d 'The greatest life of a datagram'
complete -c nbt -n '__nbt_takes longest nbns host' -l longest -x -d 'The longest lease'
complete -c nbt -n '__nbt_takes for nbns host' -l for -x -d 'End after this time'
complete -c nbt -n '__nbt_takes log nbns' -l log -d 'Print a line per grant, renewal, refusal and release'
complete -c nbt -n '__nbt_takes log-broadcasts nbns' -l log-broadcasts -d 'Print broadcasts of B nodes too'
complete -c nbt -n '__nbt_takes log-rate nbns' -l log-rate -x -d 'How many lines of a kind the log has in a second'
complete -c nbt -n '__nbt_takes leases nbns' -l leases -r -F -d 'Keep the list of live leases in a file'
complete -c nbt -n '__nbt_takes hosts nbns' -l hosts -r -F -d 'Keep the hosts in a file'
complete -c nbt -n '__nbt_takes stats nbns' -l stats -r -F -d 'Keep statistics in a file'
complete -c nbt -n '__nbt_takes strict nbns' -l strict -d 'Refuse the registrations of Samba'
complete -c nbt -n '__nbt_takes rows nbns' -l rows -x -d 'How many live leases it keeps'
complete -c nbt -n '__nbt_takes rows-per-client nbns' -l rows-per-client -x -d 'How many live leases a client may have'
complete -c nbt -n '__nbt_is nbns' -l allow -x -d 'Let the machines of a network register'
complete -c nbt -n '__nbt_takes allow-file nbns' -l allow-file -r -F -d 'Let the machines of the networks of a file register'
complete -c nbt -n '__nbt_takes fixed nbns' -l fixed -r -F -d 'Answer for the names of a file'
complete -c nbt -n '__nbt_takes state nbns' -l state -x -a '(__fish_complete_directories)' -d 'Keep the leases in a folder'
complete -c nbt -n '__nbt_takes silent-after-boot nbns' -l silent-after-boot -d 'Go on in the same boot alone'
complete -c nbt -n '__nbt_takes changes-per-client nbns' -l changes-per-client -x -d 'How many changes a client may make in a second'
complete -c nbt -n '__nbt_takes check nbns' -l check -d 'Print what a start would do'
complete -c nbt -n '__nbt_is host' -l group -x -d 'Hold a name as a group'
complete -c nbt -n '__nbt_takes log host' -l log -d 'Print renewals too'
complete -c nbt -n '__nbt_is release' -l group -x -d 'Release the name of a group'
complete -c nbt -n '__nbt_takes life release' -l life -x -d 'No effect'
complete -c nbt -n '__nbt_takes longest release' -l longest -x -d 'No effect'
complete -c nbt -n '__nbt_takes for release' -l for -x -d 'No effect'
complete -c nbt -n '__nbt_takes log release' -l log -d 'No effect'
complete -c nbt -n '__nbt_is status' -l also -x -d 'Another host'
complete -c nbt -n '__nbt_takes rate scan' -l rate -x -d 'How many requests to send in a second'
complete -c nbt -n '__nbt_takes port scan' -l port -x -d 'The port to ask'
complete -c nbt -n '__nbt_takes sorted scan' -l sorted -d 'Print the hosts by address, at the end'
complete -c nbt -n '__nbt_takes long scan; and not contains -- --hosts (commandline -opc); and not contains -- --json (commandline -opc)' -l long -d 'Print each name of a host too'
complete -c nbt -n '__nbt_takes hosts scan; and not contains -- --long (commandline -opc); and not contains -- --json (commandline -opc)' -l hosts -d 'Print lines for /etc/hosts'
complete -c nbt -n '__nbt_takes json scan; and not contains -- --long (commandline -opc); and not contains -- --hosts (commandline -opc)' -l json -d 'Print objects of JSON'
complete -c nbt -n '__nbt_takes progress scan' -l progress -d 'Say on standard error how far it is'
complete -c nbt -n '__nbt_takes from import' -l from -x -a 'wins.dat lmhosts nbtscan list' -d 'What each file is'
complete -c nbt -n '__nbt_is import; and not __nbt_has 1' -F
complete -c nbt -n '__nbt_takes json leases' -l json -d 'Print objects of JSON'
complete -c nbt -n '__nbt_is leases; and __nbt_has 2' -F
complete -c nbt -n '__nbt_takes at answer' -l at -x -d 'The time since the start of the server, in milliseconds'
complete -c nbt -n '__nbt_takes explain show' -l explain -d 'Say the same in the words of Wireshark'
complete -c nbt -n '__nbt_is show; and __nbt_has 2' -a 'name dgram session'
complete -c nbt -n '__nbt_takes draw sim' -l draw -d 'Print a picture in SVG'
complete -c nbt -n '__nbt_takes forever serve node' -l forever -d 'Go on until a signal'
complete -c nbt -n '__nbt_is node; and __nbt_has 7' -a 'unique group'

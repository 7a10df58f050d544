# Completions of capvet for fish: its commands, the options of each, and files.

# Whether the command line has the command of capvet that is named.
function __capvet_is
    set -l words (commandline -opc)
    contains -- "$words[2]" $argv
end

set -l vetting vet explain filter dump get check canon hash
set -l reading segments $vetting
set -l commands $reading pack unpack

complete -c capvet -f
complete -c capvet -n __fish_is_first_token -s h -l help -d 'Print help'
complete -c capvet -n __fish_is_first_token -s V -l version -d 'Print the version'
complete -c capvet -n __fish_is_first_token -a segments -d 'Print the segments of each message'
complete -c capvet -n __fish_is_first_token -a vet -d 'Check that each message is safe to traverse'
complete -c capvet -n __fish_is_first_token -a explain -d 'Check as vet does, and explain each refusal'
complete -c capvet -n __fish_is_first_token -a filter -d 'Write each accepted message'
complete -c capvet -n __fish_is_first_token -a dump -d 'Print the tree of each accepted message'
complete -c capvet -n __fish_is_first_token -a get -d 'Print the node at a path in each accepted message'
complete -c capvet -n __fish_is_first_token -a check -d 'Check that each message is canonical'
complete -c capvet -n __fish_is_first_token -a canon -d 'Write the canonical copy of each message'
complete -c capvet -n __fish_is_first_token -a hash -d 'Print the SHA-256 of the content of each message'
complete -c capvet -n __fish_is_first_token -a pack -d 'Pack a stream of words'
complete -c capvet -n __fish_is_first_token -a unpack -d 'Unpack a stream of words'
complete -c capvet -n __fish_is_first_token -a help -d 'Print help of a command'

complete -c capvet -n "__capvet_is help" -a "$commands"
complete -c capvet -n "__capvet_is $commands" -s h -l help -d 'Print help'
complete -c capvet -n "__capvet_is $commands" -F
complete -c capvet -n "__capvet_is $reading" -l packed -d 'The input is packed'
complete -c capvet -n "__capvet_is $reading" -l size -x -d 'Maximum words of a message'
complete -c capvet -n "__capvet_is $vetting" -l words -x -d 'Maximum charge in words'
complete -c capvet -n "__capvet_is $vetting" -l depth -x -d 'Maximum level of an object'
complete -c capvet -n "__capvet_is $vetting" -l strict -d 'Refuse a form that common readers reject'
complete -c capvet -n "__capvet_is $vetting" -l unamplified -d 'Refuse a charge far above the words of the message'
complete -c capvet -n "__capvet_is $vetting" -l one -d 'Demand that the input is exactly one message'
complete -c capvet -n "__capvet_is vet explain check hash" -l json -d 'Print a JSON object for each message, one a line'
complete -c capvet -n "__capvet_is segments vet explain check hash" -l files -r -F -d 'Files to read, with names in the lines'
complete -c capvet -n "__capvet_is vet explain filter" -l exclusive -d 'Refuse a message that uses a word twice'
complete -c capvet -n "__capvet_is explain" -l canonical -d 'Say whether each accepted message is canonical, and why not'
complete -c capvet -n "__capvet_is filter" -l allow-nonstrict -d 'Accept a form that common readers reject'
complete -c capvet -n "__capvet_is filter" -l allow-amplified -d 'Accept a charge far above the words of the message'
complete -c capvet -n "__capvet_is filter" -l pack -d 'Pack the output'
complete -c capvet -n "__capvet_is filter" -l stop -d 'End the run after the first refused message'

# Completion of nixkeep for fish: put this file into a folder of $fish_complete_path.

# The subcommand of the line so far and its words, without options and their values.
function __nixkeep_words
    set -l words
    set -l is_value 0
    for word in (commandline -opc)[2..-1]
        if test $is_value = 1
            set is_value 0
        else if contains -- $word --db --config --user --group --owner --max-freed --port --connections
            set is_value 1
        else if not string match -q -- '-*' $word
            set -a words $word
        end
    end
    set -q words[1]; and printf '%s\n' $words
end

# Whether this many words of these subcommands precede the cursor; with `any` it doesn't matter how many.
function __nixkeep_at
    set -l words (__nixkeep_words)
    test (count $words) -gt 0; and contains -- $words[1] $argv[2..-1]; or return 1
    test $argv[1] = any; or test (math (count $words) - 1) = $argv[1]
end

function __nixkeep_first
    test (count (__nixkeep_words)) = 0
end

complete -c nixkeep -f
complete -c nixkeep -s h -l help -d 'Print help'
complete -c nixkeep -n __nixkeep_first -s V -l version -d 'Print the version'

complete -c nixkeep -n __nixkeep_first -l db -r -F -d 'The database of the store'
complete -c nixkeep -n __nixkeep_first -l config -r -F -d 'The configuration'
complete -c nixkeep -n __nixkeep_first -l user -x -a '(__fish_complete_users)' -d 'The name of the caller'
complete -c nixkeep -n __nixkeep_first -l group -x -a '(__fish_complete_groups)' -d 'The primary group of the caller'

for when in __nixkeep_first '__nixkeep_at 0 help'
    complete -c nixkeep -n $when -a who -d 'Print the class of the caller'
    complete -c nixkeep -n $when -a text-path -d 'Print the store path of contents'
    complete -c nixkeep -n $when -a source-path -d 'Print the store path of an archive'
    complete -c nixkeep -n $when -a ls -d 'Print the listing of an archive'
    complete -c nixkeep -n $when -a add-text -d 'Add contents'
    complete -c nixkeep -n $when -a add-source -d 'Add an archive'
    complete -c nixkeep -n $when -a import -d 'Import an object'
    complete -c nixkeep -n $when -a info -d 'Print the record of an object'
    complete -c nixkeep -n $when -a cat-nar -d 'Print the archive of an object'
    complete -c nixkeep -n $when -a list -d 'Print all paths'
    complete -c nixkeep -n $when -a live -d 'Print the live paths'
    complete -c nixkeep -n $when -a dead -d 'Print the dead paths'
    complete -c nixkeep -n $when -a roots -d 'Print all roots'
    complete -c nixkeep -n $when -a why -d 'Print the roots that keep a path alive'
    complete -c nixkeep -n $when -a report -d 'Print how many paths are live and dead'
    complete -c nixkeep -n $when -a root -d 'Set a root'
    complete -c nixkeep -n $when -a unroot -d 'Remove a root'
    complete -c nixkeep -n $when -a profile -d 'Change a profile'
    complete -c nixkeep -n $when -a temp -d 'Change the temporary roots of a session'
    complete -c nixkeep -n $when -a runtime -d 'Replace the runtime roots'
    complete -c nixkeep -n $when -a gc -d 'Delete the dead objects'
    complete -c nixkeep -n $when -a delete -d 'Delete objects and all that refer to them'
    complete -c nixkeep -n $when -a serve -d 'Serve the store over HTTP'
    complete -c nixkeep -n $when -a help -d 'Print help'
end

complete -c nixkeep -n '__nixkeep_at any root unroot' -l permanent -d 'A permanent root'
complete -c nixkeep -n '__nixkeep_at any unroot profile temp' -l owner -x -a '(__fish_complete_users)' -d 'Whose it is'
complete -c nixkeep -n '__nixkeep_at 0 profile' -a 'set rollback switch delete'
complete -c nixkeep -n '__nixkeep_at 0 temp' -a 'add end'
complete -c nixkeep -n '__nixkeep_at any gc delete' -l ignore-liveness -d 'Denied to everyone'
complete -c nixkeep -n '__nixkeep_at any gc' -l max-freed -x -d 'Stop once this many bytes are freed'
complete -c nixkeep -n '__nixkeep_at any serve' -l port -x -d 'The port on 127.0.0.1'
complete -c nixkeep -n '__nixkeep_at any serve' -l connections -x -d 'How many connections are served'

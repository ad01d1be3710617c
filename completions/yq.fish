# Completion of yq in fish: commands, options and files.

function __yq_evaluates
    not __fish_seen_subcommand_from undo redo history squash
end

function __yq_has_diffs
    not __fish_seen_subcommand_from undo redo squash
end

# The files that may be meant, those of YAML first, without journals; behind undo and the like those that have a journal, if there are any.
function __yq_files
    set -l yaml
    set -l others
    set -l folders
    set -l recorded
    for offer in (__fish_complete_path (commandline -ct) | string match -v '*.undo.json*')
        set -l file (string replace -r '\t.*' '' -- $offer)
        switch $file
            case '*/'
                set -a folders $offer
            case '*.yaml' '*.yml'
                set -a yaml $offer
            case '*'
                set -a others $offer
        end
        test -e $file.undo.json; and set -a recorded $offer
    end
    if not __yq_evaluates; and set -q recorded[1]
        string join -- \n $recorded $folders
    else
        string join -- \n $yaml $others $folders
    end
end

# Files come behind an expression or the word of a command.
complete -c yq -f
complete -c yq -n 'not __fish_is_first_token' -k -a '(__yq_files)'

# The table of options: begin.
complete -c yq -n __fish_is_first_token -a eval -d 'print what EXPR reads of FILE, or FILE as EXPR updates it'
complete -c yq -n __fish_is_first_token -a undo -d 'take the last edit of FILE back'
complete -c yq -n __fish_is_first_token -a redo -d 'make the edit again that was taken back last'
complete -c yq -n __fish_is_first_token -a history -d 'list the edits of FILE, oldest first'
complete -c yq -n __fish_is_first_token -a squash -d 'join the last N edits of FILE into one'
complete -c yq -n __yq_evaluates -s i -l inplace -d 'write the updated text to FILE, and record the edit'
complete -c yq -n __yq_evaluates -s e -l exit-status -d 'end with status 1 where nothing but null and false is read'
complete -c yq -n __yq_evaluates -s N -l no-doc -d 'print no marker between documents'
complete -c yq -n __yq_has_diffs -s d -l diff -d 'print what an update changes, or changed'
complete -c yq -n __yq_evaluates -l expect-change -d 'end with status 1 where an update changes no byte'
complete -c yq -n __yq_evaluates -l text -x -d 'set what EXPR leads to, to TEXT as it is'
complete -c yq -l journal -r -F -d 'where the edits are recorded, in place of FILE.undo.json'
complete -c yq -l explain -d 'say where and why a command is refused, as on a terminal'
complete -c yq -s h -l help -d 'print the commands and options'
# The table of options: end.

# Completion of metalcheck's words for fish. Copy this file to ~/.config/fish/completions/.

# Whether this option may stand here, or its value: neither it, nor a file, -- or --generate has come before.
function __metalcheck_may_take
    set -l skipped 0
    test (commandline -opc)[-1] = $argv[1] -a $argv[1] != --stats; and return 0
    for word in (commandline -opc)[2..-1]
        set -l name (string replace -r '=.*' '' -- $word)
        if test $skipped = 1
            set skipped 0
        else if not contains -- $name --depth --format --stats
            return 1
        else if test $name = $argv[1]
            return 1
        else if contains -- $word --depth --format
            set skipped 1
        end
    end
    return 0
end

# Whether words have come before this one.
function __metalcheck_has_words
    test (count (commandline -opc)) -gt 1
end

# Whether the words are those of a generated program.
function __metalcheck_generates
    contains -- --generate (commandline -opc)
end

# The folders, checkers and C files whose name begins as this word does.
function __metalcheck_files
    __fish_complete_path (commandline -ct) | string match -r '^.*(?:/|\.metal|\.c|\.i)(?:\t.*)?$'
end

complete -c metalcheck -f
complete -c metalcheck -n '__metalcheck_may_take --depth' -l depth -x -a '0 1 2 3 4 5 6 7 8' -d 'Follow objects of at most so many steps'
complete -c metalcheck -n '__metalcheck_may_take --format' -l format -x -a 'table json' -d 'Write the reports in this style'
complete -c metalcheck -n '__metalcheck_may_take --stats' -l stats -d 'Write a line of statistics to standard error'
complete -c metalcheck -n 'not __metalcheck_has_words' -l generate -x -d 'Judge the generated program of a number from 1 to 9999'
complete -c metalcheck -n 'not __metalcheck_generates' -a '(__metalcheck_files)'

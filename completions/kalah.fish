# Completions of kalah for fish.

complete -c kalah -f
complete -c kalah -n __fish_use_subcommand -s h -l help -d 'Print help'
complete -c kalah -n __fish_use_subcommand -s V -l version -d 'Print the version'
complete -c kalah -n __fish_use_subcommand -a solve -d 'Print the best house and the margin of best play of each position'
complete -c kalah -n __fish_use_subcommand -a values -d 'Print what each move of each position is worth'
complete -c kalah -n __fish_use_subcommand -a show -d 'Draw a position, and below each house what its move is worth'
complete -c kalah -n __fish_use_subcommand -a play -d 'Print the game that best play leads to from a position, move by move'
complete -c kalah -n __fish_use_subcommand -a moves -d 'Print each legal move of a position, and the position after it'
complete -c kalah -n __fish_use_subcommand -a ask -d 'Answer each line of standard input before reading the next'
complete -c kalah -n __fish_use_subcommand -a steps -d 'Print each legal move of each position, and what it leads to'
complete -c kalah -n __fish_use_subcommand -a count -d 'Count the ways to play on from a position, for each first move'

# Whether the subcommand is one of those before `--`, and none of the options after it was given. One whose value is typed doesn't count.
function __kalah_may
    set -l words (commandline -opc)[2..]
    set -l at (contains -i -- -- $argv)
    contains -- "$words[1]" $argv[1..(math $at - 1)]; or return
    contains -- "$words[-1]" --workers --table --first; and set -e words[-1]
    for word in (string replace -r '=.*' '' -- $words)
        contains -- $word -h --help --$argv[(math $at + 1)..]; and return 1
    end
    true
end

complete -c kalah -n '__kalah_may solve values show play moves ask steps count -- help' -s h -l help -d 'Print help'
complete -c kalah -n '__kalah_may ask -- values steps' -l values -d 'Print what each move is worth, as values does'
complete -c kalah -n '__kalah_may ask -- values steps table' -l steps -d 'Print each legal move, as steps does'
complete -c kalah -n '__kalah_may play moves -- boards' -l boards -d 'Draw each position below its line'
complete -c kalah -n '__kalah_may solve values show play ask -- table steps' -l table -x -d 'Use tables of N entries, 1 to 1048576'
complete -c kalah -n '__kalah_may play -- first' -l first -x -a '1 2 3 4 5 6' -d 'Begin with this house'
complete -c kalah -n '__kalah_may show -- plain' -l plain -d 'Draw the position alone'
complete -c kalah -n '__kalah_may show -- lines' -l lines -d 'Print the best play after each move'
complete -c kalah -n '__kalah_may play -- values' -l values -d 'Print with each move the value of the position it was made in'
complete -c kalah -n '__kalah_may solve values steps -- workers' -l workers -x -d 'Answer up to N lines in parallel, 1 to 64'
complete -c kalah -n '__kalah_may solve values steps -- progress' -l progress -d 'Show on standard error how many lines are answered'
complete -c kalah -n '__fish_seen_subcommand_from solve values steps' -F

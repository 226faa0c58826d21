#compdef kalah
# Completions of kalah for zsh.

_kalah() {
    local curcontext=$curcontext state line
    local -a help=('(- *)'{-h,--help}'[print help]')
    _arguments -C $help '(- *)'{-V,--version}'[print the version]' '1:subcommand:->subcommand' '*::argument:->argument' && return
    case $state in
        subcommand)
            local -a subcommands=(
                'solve:print the best house and the margin of best play of each position'
                'values:print what each move of each position is worth'
                'show:draw a position, and below each house what its move is worth'
                'play:print the game that best play leads to from a position, move by move'
                'moves:print each legal move of a position, and the position after it'
                'ask:answer each line of standard input before reading the next'
                'steps:print each legal move of each position, and what it leads to'
                'count:count the ways to play on from a position, for each first move'
            )
            _describe subcommand subcommands
            ;;
        argument)
            local boards='--boards[draw each position below its line]'
            local workers='--workers=[answer up to N lines in parallel, 1 to 64]:workers: '
            local progress='--progress[show on standard error how many lines are answered]'
            local table='--table=[use tables of N entries, 1 to 1048576]:entries: '
            case $line[1] in
                solve | values) _arguments $help $workers $table $progress '*:file of positions:_files' ;;
                show) _arguments $help '--plain[draw the position alone]' '--lines[print the best play after each move]' $table '1:position in quotes: ' ;;
                play)
                    local margins='--values[print with each move the value of the position it was made in]'
                    local first='--first=[begin with this house, 1 to 6]:house:(1 2 3 4 5 6)'
                    _arguments $help $table $boards $margins $first '1:position in quotes: '
                    ;;
                moves) _arguments $help $boards '1:position in quotes: ' ;;
                ask)
                    local values='(--steps)--values[print what each move is worth, as values does]'
                    local steps='(--values --table)--steps[print each legal move, as steps does]'
                    _arguments $help $values $steps "(--steps)$table" '*:no argument: '
                    ;;
                steps) _arguments $help $workers $progress '*:file of positions:_files' ;;
                count) _arguments $help '1:number of moves, 0 to 20: ' '2:position in quotes: ' ;;
            esac
            ;;
    esac
}

_kalah "$@"

# Completions of nonograde for fish. The descriptions are the program's help.
function __nonograde_files -d 'Prints puzzle files, and folders'
    __fish_complete_path (commandline -ct) | string match -ri '^[^\t]*(?:/|[.](?:non|mk|nin))(?:\t.*)?$'
end
set -l commands survey check solve convert lines help
complete -c nonograde -f
complete -c nonograde -n "not __fish_seen_subcommand_from $commands" -a survey -d 'Grade the puzzles of a collection'
complete -c nonograde -n "not __fish_seen_subcommand_from $commands" -a check -d 'Find what is wrong with puzzles, and where'
complete -c nonograde -n "not __fish_seen_subcommand_from $commands" -a solve -d 'Solve a puzzle'
complete -c nonograde -n "not __fish_seen_subcommand_from $commands" -a convert -d 'Write a puzzle in another format'
complete -c nonograde -n "not __fish_seen_subcommand_from $commands" -a lines -d 'Close a puzzle by line logic'
complete -c nonograde -n "not __fish_seen_subcommand_from $commands" -a help -d 'Print this message or the help of the given subcommand(s)'
complete -c nonograde -n "not __fish_seen_subcommand_from $commands" -s V -l version -d 'Print version'
complete -c nonograde -n "not __fish_seen_subcommand_from help" -s h -l help -d 'Print help'
complete -c nonograde -n "__fish_seen_subcommand_from help; and test (count (commandline -opc)) -eq 2" -a "$commands"
complete -c nonograde -n '__fish_seen_subcommand_from survey check solve' -l guesses -x -d 'The most guesses for a puzzle, 0 to 1000000'
complete -c nonograde -n '__fish_seen_subcommand_from survey check solve' -l pick -x -a 'first most' -d 'Guess the first unknown cell, or the one with the most known neighbours'
complete -c nonograde -n '__fish_seen_subcommand_from survey check' -l lanes -x -d 'The number of lanes, 1 to 16'
complete -c nonograde -n '__fish_seen_subcommand_from survey check' -l ring -x -d 'The capacity of a lane\'s rings, 1 to 64'
complete -c nonograde -n '__fish_seen_subcommand_from survey' -l format -x -a 'text csv json html' -d 'The format of the survey'
complete -c nonograde -n '__fish_seen_subcommand_from survey' -l show -d 'Show the solutions'
complete -c nonograde -n '__fish_seen_subcommand_from survey check' -l progress -d 'Show progress on standard error'
complete -c nonograde -n '__fish_seen_subcommand_from check' -l grade -x -a 'line trials' -d 'Warn of puzzles that need more than this'
complete -c nonograde -n '__fish_seen_subcommand_from check' -l all -d 'List the puzzles without a finding too'
complete -c nonograde -n '__fish_seen_subcommand_from check' -l strict -d 'Exit with 1 for a warning too'
complete -c nonograde -n '__fish_seen_subcommand_from convert' -l to -x -a 'non mk nin' -d 'The format'
complete -c nonograde -n 'not __fish_seen_subcommand_from help; and __fish_seen_subcommand_from survey check solve convert lines' -a '(__nonograde_files)'

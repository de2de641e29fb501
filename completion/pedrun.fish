# Completion of pedrun's words for fish: source completion/pedrun.fish, or copy it to ~/.config/fish/completions

# The words before the one that is completed. Files after a redirection are completed by fish itself.
function __pedrun_words
    commandline --tokenize --cut-at-cursor --current-process
end

# Whether the command is due.
function __pedrun_at_command
    test (count (__pedrun_words)) -eq 1
end

# Whether an option's name is due, of one of these commands.
function __pedrun_of
    set -l words (__pedrun_words)
    test (math (count $words) % 2) -eq 0; and contains -- $words[2] $argv
end

# Whether none of these options is given yet.
function __pedrun_lacks
    set -l words (__pedrun_words)
    for it in $argv
        contains -- --$it $words; and return 1
    end
    return 0
end

# Whether the value of an option is due.
function __pedrun_value
    set -l words (__pedrun_words)
    test (math (count $words) % 2) -eq 1; and test "$words[-1]" = --$argv[1]
end

complete -c pedrun --no-files
complete -c pedrun -n __pedrun_at_command -a run -d 'run a script on several workers'
complete -c pedrun -n __pedrun_at_command -a serial -d 'print what run prints, without workers'
complete -c pedrun -n __pedrun_at_command -a sim -d 'simulate workers, and print what run prints'
complete -c pedrun -n __pedrun_at_command -a check -d 'say whether a script is valid'
complete -c pedrun -n __pedrun_at_command -a fmt -d 'print a script in canonical text'
complete -c pedrun -n __pedrun_at_command -a replay -d 'print what one strand of a script did'
complete -c pedrun -n __pedrun_at_command -a hash -d 'print the dot product of a pedigree and its draw'
complete -c pedrun -n __pedrun_at_command -a gen -d 'print a script of a shape and a size'
complete -c pedrun -n __pedrun_at_command -a stream -d 'print the draws of consecutive ranks'
complete -c pedrun -n __pedrun_at_command -a span -d 'print how many events a script has, and their longest chain'
complete -c pedrun -n __pedrun_at_command -a batch -d 'print what run prints under each seed of a list'
complete -c pedrun -n __pedrun_at_command -a --help -d 'list the commands and options'
complete -c pedrun -n __pedrun_at_command -a --version -d 'print the version'

complete -c pedrun -n 'test (count (__pedrun_words)) -eq 2; and __pedrun_of run serial sim check fmt replay hash gen stream span batch' -a --help -d 'explain the command'
complete -c pedrun -n '__pedrun_of run serial sim replay hash stream span; and __pedrun_lacks seed gamma' -a --seed -d 'the seed of the draws'
complete -c pedrun -n '__pedrun_of run serial sim replay hash stream span; and __pedrun_lacks seed gamma' -a --gamma -d 'the coefficients of the draws in place of a seed'
complete -c pedrun -n '__pedrun_of run serial sim replay span batch; and __pedrun_lacks depth' -a --depth -d 'how many ranks a pedigree may have, from 1 to 512'
complete -c pedrun -n '__pedrun_of run serial sim replay span batch; and __pedrun_lacks budget' -a --budget -d 'how many steps each instance may make'
complete -c pedrun -n '__pedrun_of run serial sim replay hash stream span batch; and __pedrun_lacks rounds' -a --rounds -d 'how often a draw is mixed, from 0 to 8'
complete -c pedrun -n '__pedrun_of run sim batch; and __pedrun_lacks workers' -a --workers -d 'how many threads, from 1 to 64'
complete -c pedrun -n '__pedrun_of run serial sim batch; and __pedrun_lacks show' -a --show -d 'plain, or log to see draws and objects too'
complete -c pedrun -n '__pedrun_of sim; and __pedrun_lacks number' -a --number -d 'which simulation it is'
complete -c pedrun -n '__pedrun_of replay hash stream; and __pedrun_lacks at' -a --at -d 'the name of a strand, such as 0.3.1'
complete -c pedrun -n '__pedrun_of gen; and __pedrun_lacks shape' -a --shape -d 'fib, tree or loop'
complete -c pedrun -n '__pedrun_of gen; and __pedrun_lacks size' -a --size -d 'the size of the script'
complete -c pedrun -n '__pedrun_of stream; and __pedrun_lacks count' -a --count -d 'how many draws'
complete -c pedrun -n '__pedrun_of stream; and __pedrun_lacks below' -a --below -d 'what each draw is reduced by'
complete -c pedrun -n '__pedrun_of batch; and __pedrun_lacks seeds' -a --seeds -d 'from 1 to 256 seeds, joined by commas'

complete -c pedrun -n '__pedrun_value show' -a 'plain log'
complete -c pedrun -n '__pedrun_value shape' -a 'fib tree loop'
complete -c pedrun -n '__pedrun_value workers' -a '1 2 4 8 16 32 64'
complete -c pedrun -n '__pedrun_value depth' -a '256 512'
complete -c pedrun -n '__pedrun_value budget' -a 1000000
complete -c pedrun -n '__pedrun_value rounds' -a 4

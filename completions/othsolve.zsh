#compdef othsolve
# Completion of othsolve for zsh. ./install puts it into PREFIX/share/zsh/site-functions as _othsolve.

# The commands, and what each is for. One with options or a FILE has a case below too.
local -a commands=(
    'solve:write the score and all best moves of each board line'
    'scores:write the score of every move of each board line'
    'moves:write all legal moves of each board line'
    'transcript:write the board line that each transcript leads to'
    'play:write the board line that the moves behind each board line lead to'
    'analyse:write the last moves of each game beside the best ones'
    'book-verify:verify every entry of a book'
    'book-add:write a book with the answers to the board lines of standard input added'
)

local -a search=(
    '--workers=[threads that search one board together]:workers:({1..16})'
    '--cells=[cells of 32 bytes of the table that they share]:cells:(0 1 2 4 8 16 32 64 128 256 512 1024 2048 4096 8192 16384 32768 65536 131072 262144)'
)
local -a scoring=('--scoring=[what a finished game is worth]:scoring:((winner\:"empty squares go to the winner" discs\:"the difference of the discs alone"))')
local -a last=('--last=[tell the moves made from N empty squares on]:squares:({1..30})')
local -a book=('--book=[a book that is asked first]:book:_files')
local -a explain=('--explain[tell each fault in words on standard error]')
local -a strict=('--strict[end with status 4 where a line has a fault]')
local -a files=('*:lines:_files')
local -a help=('(- *)'{-h,--help}'[print help]')

local curcontext=$curcontext state line
_arguments -C $help '(- *)'{-V,--version}'[print the version]' '1:command:->command' '*::argument:->argument'
case $state in
    command) _describe command commands -- '(help:print\ help)' ;;
    argument)
        case $words[1] in
            solve) _arguments $help $search $scoring $book $explain $strict $files ;;
            scores) _arguments $help $search $scoring $explain $strict $files ;;
            moves) _arguments $help $explain $strict $files ;;
            transcript) _arguments $help $explain $strict $files ;;
            play) _arguments $help $explain $strict $files ;;
            analyse) _arguments $help $search $scoring $last $explain $strict $files ;;
            book-verify) _arguments $help $explain '1:book:_files' ;;
            book-add) _arguments $help $search $explain '1:book:_files' ;;
            help) _describe command commands ;;
            *) _arguments $help ;;
        esac
        ;;
esac

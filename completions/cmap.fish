# fish completion for cmap

set -l names info list find check decode lookup text encode where diff write repair make bundle
set -l warnings all nothing-declared no-codespace outside-codespace overlap inverted-range crosses-row last-byte \
    no-text private-use noncharacter replacement-character null-character no-mapping name-differs mode-differs \
    count-differs long-section no-endcmap code-length odd-digits odd-text

complete -c cmap -n "not __fish_seen_subcommand_from $names" -f -a info -d 'Print what files say'
complete -c cmap -n "not __fish_seen_subcommand_from $names" -f -a list -d 'Print each declaration of a file'
complete -c cmap -n "not __fish_seen_subcommand_from $names" -f -a find -d 'Print the codes that have a CID or a text'
complete -c cmap -n "not __fish_seen_subcommand_from $names" -f -a check -d 'Print whether files are right, or what is wrong'
complete -c cmap -n "not __fish_seen_subcommand_from $names" -f -a decode -d 'Print the codes of strings'
complete -c cmap -n "not __fish_seen_subcommand_from $names" -f -a lookup -d 'Print the CIDs and the texts of codes'
complete -c cmap -n "not __fish_seen_subcommand_from $names" -f -a text -d 'Print the texts of strings'
complete -c cmap -n "not __fish_seen_subcommand_from $names" -f -a encode -d 'Print the strings that show texts'
complete -c cmap -n "not __fish_seen_subcommand_from $names" -f -a where -d 'Print the paths of files by their names'
complete -c cmap -n "not __fish_seen_subcommand_from $names" -f -a diff -d 'Print what codes have in two files'
complete -c cmap -n "not __fish_seen_subcommand_from $names" -f -a write -d 'Write a file anew'
complete -c cmap -n "not __fish_seen_subcommand_from $names" -f -a repair -d 'Write a file without its faults'
complete -c cmap -n "not __fish_seen_subcommand_from $names" -f -a make -d 'Make a file of a table'
complete -c cmap -n "not __fish_seen_subcommand_from $names" -f -a bundle -d 'Make a bundle'
complete -c cmap -n "not __fish_seen_subcommand_from $names" -l version -d 'Print the version'
complete -c cmap -l help -d 'Print the help'

set -l over 'not __fish_seen_subcommand_from make bundle; and __fish_seen_subcommand_from'
complete -c cmap -n "$over $names" -l base -x -a '(__fish_complete_directories)' -d 'A folder with files that others use'
complete -c cmap -n "$over $names" -l bundle -r -d 'A bundle'
complete -c cmap -n "$over $names" -l no-predefined -d 'Only --base and --bundle'

set -l printing info list find check decode lookup text encode where diff
set -l reading info list find decode lookup text encode diff
complete -c cmap -n "__fish_seen_subcommand_from $printing" -l json -d 'An object of JSON per line'
complete -c cmap -n "__fish_seen_subcommand_from $reading" -l lenient -d 'Read past faults'
complete -c cmap -n "__fish_seen_subcommand_from $reading check write" -l budget -x -d 'The most bytes of all files'
complete -c cmap -n '__fish_seen_subcommand_from list' -l effective -d 'What codes have over all layers'
complete -c cmap -n '__fish_seen_subcommand_from find decode text encode' -l to-unicode -r -d 'The ToUnicode CMap of the font'
complete -c cmap -n '__fish_seen_subcommand_from find decode text encode' -l collection -x -d 'The character collection of the font'
complete -c cmap -n '__fish_seen_subcommand_from find decode text encode' -l simple -d 'FILE is the ToUnicode CMap of a simple font'
complete -c cmap -n '__fish_seen_subcommand_from decode text' -l fold -d 'Texts in usual characters'
complete -c cmap -n '__fish_seen_subcommand_from encode' -l exact -d 'Only codes that are read as the very text'
complete -c cmap -n '__fish_seen_subcommand_from encode' -l pieces -d 'Also the pieces of each text'
complete -c cmap -n '__fish_seen_subcommand_from encode' -l missing -x -d 'The bytes that replace each unencodable character'

complete -c cmap -n '__fish_seen_subcommand_from check' -l files-from -r -d 'A list of paths'
complete -c cmap -n '__fish_seen_subcommand_from check' -s 0 -l null -d 'A zero byte ends each path'
complete -c cmap -n '__fish_seen_subcommand_from check' -l first -d 'Only the first fault of a file'
complete -c cmap -n '__fish_seen_subcommand_from check' -l max-faults -x -d 'The most faults of a file'
complete -c cmap -n '__fish_seen_subcommand_from check' -l lint -d 'Also warnings'
complete -c cmap -n '__fish_seen_subcommand_from check' -l to-unicode -d 'As --lint, for maps to Unicode'
complete -c cmap -n '__fish_seen_subcommand_from check' -l deny -x -a "$warnings" -d 'Status 1 for a warning'
complete -c cmap -n '__fish_seen_subcommand_from check' -s q -l quiet -d 'No number of files'

complete -c cmap -n '__fish_seen_subcommand_from write repair make bundle' -s o -l output -r -d 'The file that is written'
complete -c cmap -n '__fish_seen_subcommand_from write' -l flatten -d 'One file of all layers'
complete -c cmap -n '__fish_seen_subcommand_from write' -l codes -x -d 'For these strings alone'
complete -c cmap -n '__fish_seen_subcommand_from write' -l tidy -d 'The fewest declarations'
complete -c cmap -n '__fish_seen_subcommand_from write' -l binary -d 'The binary form'
complete -c cmap -n '__fish_seen_subcommand_from write make bundle' -l name -x -d 'The name of a file'
complete -c cmap -n '__fish_seen_subcommand_from make' -l collection -x -d 'The character collection'
complete -c cmap -n '__fish_seen_subcommand_from make' -l vertical -d 'For vertical text'
complete -c cmap -n '__fish_seen_subcommand_from make' -l use -x -d 'A file that it uses'
complete -c cmap -n '__fish_seen_subcommand_from bundle' -l verify -d 'Compare the bundle with the files'

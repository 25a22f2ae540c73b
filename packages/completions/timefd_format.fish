complete -c timefd_format -f
complete -c timefd_format -l language -x -a '1 2 3 strftime python c gnu chrono jiff ruby java go moment' -d 'the language of the descriptions'
complete -c timefd_format -l read -x -d 'read moments as texts of this description'
complete -c timefd_format -l to-language -x -a '1 2 3 strftime python c gnu chrono jiff ruby java go moment' -d 'with --read, the language of the description to write by'
complete -c timefd_format -l csv -x -d 'the column of comma-separated values to rewrite'
complete -c timefd_format -l else -x -a 'keep empty fail' -d 'what to write in place of a moment that is not written'
complete -c timefd_format -l guess -d 'find the descriptions that read all texts'
complete -c timefd_format -l zone -x -d 'show moments on the clock of this time zone'
complete -c timefd_format -s q -l quiet -d 'leave out warnings'
complete -c timefd_format -s h -l help -d 'write the usage'
complete -c timefd_format -s V -l version -d "write the program's version"

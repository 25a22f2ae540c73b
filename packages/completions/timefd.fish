complete -c timefd -f
complete -c timefd -n 'test (count (commandline -opc)) -eq 1' -a '1 2 3 strftime'

# Completes the options that wlim-gateway's own help has, in fish.
complete -c wlim-gateway -a '(wlim-gateway --help 2> /dev/null | string match -r -- "^  --[a-z-]+" | string trim)'

# Completes the command line of world_load in fish.

complete -c world_load -f
complete -c world_load -l port -x -d 'The port on 127.0.0.1 that worldd listens on'
complete -c world_load -l socket -r -F -d 'The path of the socket that worldd listens on, in place of a port'
complete -c world_load -l connections -x -d 'How many clients there are at once, each with a connection and a thread'
complete -c world_load -l lines -x -d 'How many lines a batch has before its end'
complete -c world_load -l cells -x -d 'How many cells are set, the first N: the world has as many, or more'
complete -c world_load -l batches -x -d 'After how many batches a connection ends; without it, only after the seconds'
complete -c world_load -l seconds -x -d 'After how many seconds no more batches are sent'
complete -c world_load -s h -l help -d 'Print help'
complete -c world_load -s V -l version -d 'Print version'

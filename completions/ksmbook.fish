# Completions of ksmbook and its shell for fish.

complete -c ksmbook -f
complete -c ksmbook -l help -d 'How the program is called'
complete -c ksmbook -l version -d 'The version of the program'
complete -c ksmbook -l nodes -x -a '1 2 3 4' -d 'NUMA nodes'
complete -c ksmbook -l frames -x -d 'Frames of each node, 1 to 256'
complete -c ksmbook -l passes -x -a '(seq 16)' -d 'Passes, by which frames are looked up'
complete -c ksmbook -l tries -x -d 'Exchanges that a lookup makes at most, 1 to 64'
complete -c ksmbook -l last-generation -x -d 'How often a frame is given before it is retired'

complete -c ksmbook-shell -l nodes -x -a '1 2 3 4' -d 'NUMA nodes'
complete -c ksmbook-shell -l frames -x -d 'Frames of each node, 1 to 256'
complete -c ksmbook-shell -l passes -x -a '(seq 16)' -d 'Passes, by which frames are looked up'
complete -c ksmbook-shell -l program -r -d 'The program, where it is another'
complete -c ksmbook-shell -l plain -d 'Replies as the program gives them'
complete -c ksmbook-shell -l check -r -d 'Tell each bad line of scripts, start no program'

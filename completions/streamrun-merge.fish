# Completion of streamrun-merge for fish.
complete -c streamrun-merge -f
complete -c streamrun-merge -a '(__fish_complete_suffix .jobs; __fish_complete_suffix .json)' -d 'job file, reports'
complete -c streamrun-merge -l rows -x -d 'How many rows each part has, the header aside'
complete -c streamrun-merge -l json -d 'Write the report as JSON'
complete -c streamrun-merge -l language -x -a '2 3' -d 'The newest version of job files that is read'
complete -c streamrun-merge -s h -l help -d 'Print help'
complete -c streamrun-merge -s V -l version -d 'Print version'

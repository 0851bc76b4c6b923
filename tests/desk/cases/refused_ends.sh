# Refusal 5: a list that does not end in a rule for every packet. The line that it ends in is named, in either order of the sections.
printf 'gate\ndeny from 10.0.0.1\ncell\nallow\n' >plant.txt
foldplover check plant.txt
printf 'gate\nallow\ncell\ndeny\ndeny from 10.0.0.1 # last\n\n# no rule\n' >plant.txt
foldplover check plant.txt
printf 'cell\nallow proto 0-254\ngate\nallow from 0.0.0.0-255.255.255.254\n' >plant.txt
foldplover check plant.txt
printf 'cell\nallow proto 0-254\ngate\nallow\n' >plant.txt
foldplover check plant.txt
# These are for every packet, though they name fields.
printf 'gate\ndeny from any to any sport any dport any proto any\ncell\nallow from 0.0.0.0/0 dport 0-65535\n' >plant.txt
foldplover check plant.txt
# Two values that are everything together are two rules, and neither is for every packet.
printf 'gate\nallow dport 0-79,80-65535\ncell\nallow\n' >plant.txt
foldplover check plant.txt
foldplover apply plant.txt
run ls

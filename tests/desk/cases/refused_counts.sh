# Refusal 2: a list without a rule, or with more than it may have.
gate() { for at in $(seq "$1"); do echo "deny from 10.0.0.$((at % 250)) dport $at"; done; }
printf 'gate\ncell\nallow\n' >plant.txt
foldplover check plant.txt
printf 'gate\nallow\ncell\n' >plant.txt
foldplover check plant.txt
printf 'gate\nallow\n' >plant.txt
foldplover check plant.txt
{ echo gate && gate 64 && printf 'allow\ncell\nallow\n'; } >plant.txt
foldplover check plant.txt
{ echo gate && gate 63 && printf 'allow\ncell\nallow\n'; } >plant.txt
foldplover check plant.txt
# The line that goes beyond stands for three rules.
{ echo gate && gate 62 && printf 'deny dport 7,8,9\nallow\ncell\nallow\n'; } >plant.txt
foldplover check plant.txt
{ printf 'gate\nallow\ncell\n' && gate 256 && echo allow; } >plant.txt
foldplover check plant.txt
# The cell may stand in front; both lists are as long as they may be.
{ echo cell && gate 255 && printf 'allow\ngate\n' && gate 63 && echo allow; } >plant.txt
foldplover check plant.txt
foldplover apply plant.txt

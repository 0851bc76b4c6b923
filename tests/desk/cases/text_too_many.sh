# A line that stands for more rules than a list may have.
row() { seq -s , "$@"; }
printf 'gate\nallow\ncell\ndeny sport %s dport %s\nallow\n' "$(row 1 17)" "$(row 1 16)" >plant.txt
foldplover check plant.txt
printf 'gate\nallow\ncell\ndeny dport %s\nallow\n' "$(row 1 257)" >plant.txt
foldplover check plant.txt
# The most that there is room for beside the last rule.
printf 'gate\nallow\ncell\ndeny sport %s dport %s\nallow\n' "$(row 1 17)" "$(row 1 15)" >plant.txt
foldplover check plant.txt
# Services made of services count as what they stand for.
{
    for n in 1 2; do echo "service s$n tcp $(seq -s , $((1000 * n)) $((1000 * n + 199)))"; done
    printf 'service all tcp s1,s2\ngate\nallow\ncell\nallow\n'
} >services.txt
foldplover check services.txt

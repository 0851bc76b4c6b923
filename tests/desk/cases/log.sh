# The generations of a plant: the last 20, or all of them.
printf 'gate\ndeny dport 1 @one\nallow\ncell\nallow\n' >plant.txt
foldplover log plant.txt
quietly apply plant.txt
foldplover log plant.txt
# 22 generations.
for port in {2..22}; do quietly set plant.txt @one deny dport "$port"; done
foldplover log plant.txt
foldplover log plant.txt --all

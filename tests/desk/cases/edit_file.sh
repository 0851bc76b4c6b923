# The text stays what it is in its folder: a link, its mode.
mkdir shared
cp "$root/examples/dairy.txt" shared/plant.txt
ln -s shared/plant.txt plant.txt
chmod 600 shared/plant.txt
quietly apply plant.txt
quietly add plant.txt 5 deny dport 23
run readlink plant.txt
run stat -c %a shared/plant.txt
run grep -c 'dport 23' shared/plant.txt
# A write-protected text is not edited; a lost one is brought back as the message says.
chmod 444 shared/plant.txt
foldplover add plant.txt 5 deny dport 24
foldplover undo plant.txt
rm shared/plant.txt
ln -sf plant.txt shared/other.txt
foldplover undo shared/plant.txt
cat shared/plant.d/current/policy.txt >shared/plant.txt
quietly undo shared/plant.txt
run cat shared/plant.d/current/policy.txt
# Two texts never share a folder.
cp plant.txt plant.new
cp plant.txt plant
foldplover check plant.new
foldplover apply plant.new
foldplover load plant --with echo
foldplover why plant.new 10.0.0.1:1 10.0.0.2:2 tcp
foldplover why plant.new 10.0.0.1:1 10.0.0.2:2 tcp --text
# What is written to is a plain file or nothing.
mkfifo pipe
foldplover order plant.txt -o pipe
foldplover order plant.txt -o /dev/null
run stat -c %F pipe /dev/null
# Whoever edits somebody else's text leaves it to him, and the generation too; only root can do so.
if [ "$(id -u)" = 0 ]; then
    mkdir other
    cp "$root/examples/dairy.txt" other/plant.txt
    chmod 600 other/plant.txt
    chown 12345:12345 other/plant.txt
    quietly apply other/plant.txt
    quietly add other/plant.txt 5 deny dport 23
    seen=$(stat -c '%u:%g %a' other/plant.txt other/plant.d/0002/cell | tr '\n' ' ')
    [ "$seen" = '12345:12345 600 12345:12345 400 ' ] || echo "OWNER OR MODE: $seen"
fi

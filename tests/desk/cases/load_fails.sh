# A command that fails: status 6, and what stands in the filters then.
export TMPDIR=.
cp "$root/examples/dairy.txt" .
quietly apply dairy.txt
cat >loader <<'SCRIPT'
#!/bin/sh
# Fails with status 9 for the filter that is its first word.
echo "loader: $2"
[ "$1" != "$2" ] || exit 9
SCRIPT
chmod +x loader
foldplover load dairy.txt --with './loader cell'
foldplover load dairy.txt --with './loader gate'
foldplover load dairy.txt --with './loader gate' --back
run ls
printf '#!/bin/sh\nkill -9 $$\n' >killed
chmod +x killed
foldplover load dairy.txt --with ./killed
foldplover load dairy.txt --with ./none
foldplover load dairy.txt --with loader

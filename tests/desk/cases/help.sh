# Every command's help, and that it goes before whatever else is said; behind -- it is a word like others.
for command in check diff apply add set del why show log undo report lists load order packets readings; do
    foldplover "$command" --help
done
foldplover check -h
foldplover check none.txt --bogus --help
foldplover check -- --help

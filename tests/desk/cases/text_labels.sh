# Labels: one on a line, each once, anywhere among the words of a rule.
cat >plant.txt <<'TEXT'
gate
deny from 10.0.0.1 @a
deny from 10.0.0.2 @a
deny from 10.0.0.3 @b @c
deny @ from 10.0.0.4
deny from 10.0.0.5 @a.b
deny from 10.0.0.6 @größe
@alone
   @d @e
deny from @f
name plc 10.0.0.1 @g
cell @h
allow
TEXT
foldplover check plant.txt

cat >right.txt <<'TEXT'
gate
@first deny from 10.0.0.1
deny @2nd from 10.0.0.2
deny from @third_- 10.0.0.3
allow @Last
cell
allow @last
TEXT
foldplover check right.txt

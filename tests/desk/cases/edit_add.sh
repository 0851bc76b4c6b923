# add: in front of a line or behind it, by label or number; everything else stays byte for byte.
cat >plant.txt <<'TEXT'
# Line 7.

gate
    # Storms first.
    deny  to 255.255.255.255     @storm # broadcasts
	deny proto udp dport 137-139
    allow @rest

cell
allow dport 443 proto tcp @web
deny
TEXT
cp plant.txt first.txt
quietly apply plant.txt
foldplover add plant.txt @rest deny from 10.1.1.1
foldplover add plant.txt before @storm 'deny from 10.1.1.2 # by hand'
foldplover add plant.txt after @storm deny from 10.1.1.3 @three
foldplover add plant.txt 8 '@four   deny  from 10.1.1.4'
foldplover add plant.txt after 3 deny to 10.9.9.9
foldplover add plant.txt after @web allow dport 80 proto tcp
# In front of the line `cell` is the end of the gate, blank lines in between or not.
foldplover add plant.txt 14 'allow # in vain, but allowed'
run diff first.txt plant.txt
run cat -A plant.txt
run cmp plant.txt plant.d/current/policy.txt
foldplover log plant.txt
(cd plant.d/current/ && run sha256sum -c --quiet sum)

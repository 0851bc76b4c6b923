# The tool without a command, and what it says of itself.
foldplover
foldplover --help
foldplover help
foldplover --version
foldplover help check
foldplover help nothing
foldplover aply
foldplover Check
foldplover $'ch\eeck'
foldplover $'\xff'

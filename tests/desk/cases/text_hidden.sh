# What shows a line otherwise than it is read is a fault, in remarks too.
check() {
    printf "$1" >plant.txt
    foldplover check plant.txt
}
check 'gate\ndeny from 10.0.0.1 # old\rdeny from 10.0.0.2\nallow\ncell\nallow\n'
check '# all\rgate\rdeny\rcell\rallow\r'
check 'gate\nallow # \033[2Kdeny\ncell\nallow\n'
check 'gate\nallow # \342\200\256yned\ncell\nallow\n'
check 'gate\nallow\v\ncell\nallow\n'
check 'gate\nallow # \342\200\250deny\ncell\nallow\n'
check 'gate\r\nallow # both ends of lines are read\ncell\r\nallow'

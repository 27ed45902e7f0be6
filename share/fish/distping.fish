function __distping_nodes
    begin
        timeout 1 distnode names 2>/dev/null; or timeout 1 epmd -"names" 2>/dev/null
    end | string replace -r -f '^name ([A-Za-z0-9_-]+) at port [0-9]+$' '$1@'(hostname -s)
end

complete -c distping -f -a '(__distping_nodes)'
complete -c distping -l name -x -d 'the name that the probe gives itself'
complete -c distping -l cookie -r -F -d 'the file of the cookie'
complete -c distping -l no-cookie -d 'stop at the challenge of the node'
complete -c distping -l cookie-unsafe -d 'take a file of a cookie that others can read'
complete -c distping -l flags -x -d 'what the probe announces'
complete -c distping -l epmd-port -x -d 'the port of the port mapper'
complete -c distping -l port -x -d 'the port of the node'
complete -c distping -l address -x -a '(__fish_print_hostnames)' -d 'the host to connect to'
complete -c distping -l tls-through -x -d 'the tunnel of TLS to the node, ADDRESS:PORT'
complete -c distping -l seconds -x -d 'the most that a connect, a lookup and the talk may take each'
complete -c distping -l listen -x -d 'take one connection at this port'
complete -c distping -l nodes -r -F -d 'a file of further nodes, one a line'
complete -c distping -l capture -r -F -d 'read a capture of packets, and report each handshake in it'
complete -c distping -l watch -x -d 'probe again every so many seconds, and print what changes'
complete -c distping -l count -x -d 'end a watch after so many rounds'
complete -c distping -l prometheus -r -F -d 'with --watch, write what was observed to this file'
complete -c distping -l all-pairs -d 'print each pair of more than two nodes'
complete -c distping -l quiet -d 'print the verdict alone'
complete -c distping -l verbose -d 'print the names of the flags, too'
complete -c distping -l json -d 'an object of JSON for each node and pair'
complete -c distping -l help -d 'print the help'
complete -c distping -l version -d 'print the version'

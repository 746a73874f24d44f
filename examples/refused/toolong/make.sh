truncate -s 1048577 gate.net

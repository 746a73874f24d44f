mkdir gate.net

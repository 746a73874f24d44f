truncate -s 16777217 steps.sim

truncate -s 1048577 by.plan

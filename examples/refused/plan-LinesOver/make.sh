{ echo 'plan 1'; seq 1025 | sed 's/.*/absorb U1.19/'; echo end; } > by.plan

{ echo 'plan 1'; seq 65 | sed 's/.*/chip N& GAL22V10/'; echo end; } > by.plan

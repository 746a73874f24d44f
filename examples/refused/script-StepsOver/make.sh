{ echo script 1; echo ports A B; seq 100001 | sed 's/.*/step 00/'; echo end; } > steps.sim

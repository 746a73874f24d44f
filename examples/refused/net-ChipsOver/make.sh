{ echo board 1; seq 65 | sed 's/.*/chip U& PAL16L8/'; echo end; } > gate.net

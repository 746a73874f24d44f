{ echo board 1; seq 1025 | sed 's/^/net N/'; echo end; } > gate.net

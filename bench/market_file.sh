# What the measure market does with one file: its audit with the results of its auctions. It is `sh
# bench/market_file.sh FILE`, with the program in CALLBOARD. An audit that finds something has status 4.
"$CALLBOARD" --audit --results < "$1" || [ $? -eq 4 ]

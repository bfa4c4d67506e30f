"""What tools/unitplain is made of, lowest first: tables, decode, craft, words, session; then what it prints: lines with its
summary, readings_csv, picture with its flight, scale and svg; and options, the command line."""

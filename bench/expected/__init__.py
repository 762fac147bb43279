"""What the program must answer, by the rules of docs/LANGUAGE.md, docs/FORMATS.md and docs/UPDATES.md alone.

This reads words, scripts, table files and feeds by a grammar of its own and makes every table afresh at every step. It is slow and plain, and shares
nothing with the program that it judges. `answers.answer` is what is asked for.
"""

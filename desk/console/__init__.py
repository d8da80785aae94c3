"""A station in words, at the keyboard or from a script (./console is its starter). docs/CONSOLE.md describes the language.

forms      every form of the language, its pattern and what it says
tokens     a line of words cut into its pieces
operands   the operands of the forms: processes, numbers, texts, words of four digits
mistakes   what is wrong with a line, in which column, and the nearest word
reading    lines of words read into statements
naming     which process a name means, and what a number is called
calling    words to digits: the lines of a log that a statement comes to
saying     digits to words: what a line of a log is in the language
session    a run: its lines served and told, with undo and again
showing    screen, open buffers, who is stuck, rings, and the table's words
helping    what 'help' says
files      scripts and logs read, logs and words written
console    statements done one after the other
keyboard   a person at a terminal: prompt, history and completion
page       the console as one page for a browser, from the files of the folder 'page'
command    the words of the command line
"""

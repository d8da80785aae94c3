"""A table's words told (./explain --table): the station that they show, or why they are no sound table.

words      the words by their places and names
dumps      text or bytes read into words
following  queues followed from link to link
clauses    the clauses of a sound table, and the sentence of docs/MONITOR.md, 3 that each is a part of
because    what is wrong with the word that a fault names
fault      a fault told, with the words around it
station    the station in words, as far as it can be read
telling    a dump told
"""

"""PCCC messages as people read them: the fields of a body, the places that addresses name, and a sentence for each message.

Nothing here is proved, and nothing is judged: what a station makes of a command is the program's to tell.
"""

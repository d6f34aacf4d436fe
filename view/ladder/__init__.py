"""Pictures of the runs of `df1 replay`: a ladder of what went over the line, as one SVG.

Nothing here is proved. A picture is drawn from the script's events and from what the program reports of them; no rule of the
protocol stands here but how the bytes that an end gave split into messages, polls and pairs, and that a master's ACK is for the station that
it polled last. What messages are called is told by `pccc`.
"""

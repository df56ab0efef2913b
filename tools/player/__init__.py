"""Plays a city against a dispatcher: roads, riders, drivers, sessions, and the figures of a log.

Each module has one idea. `roads` has travel times, `riders` who asks when, `drivers` what drivers report, `sessions` a running
`ride_dispatch serve` and `league` two companies; `evening` is the loop that lets them meet, and `runs` a whole evening from files to
figures. `figures` counts a log, `page` and `plots` show that. `insertion` finds the cheapest places in a plan, `board` and `trips` are
dispatchers to compare with, `pairing` and `ahead` send idle vehicles ahead. `manhattan` draws a city and its riders. `cases` are evenings
that differ in one thing, `rooms` play them side by side, and `second_auditor` audits a log of more vehicles than the program takes. `files` says
what is wrong with what somebody hands in.
"""

"""The second mode: 01 by its definitions, for small netlists.

It shares no algorithm with the first mode: the file is laid out before it is judged; nets and pins
have their numbers from a list of what they are; loops come from the closure of "feeds", depths and
reach from paths written out, blocks from trying all partitions; a chip is a machine stepped from
every starting state; patterns are tried one by one.
"""

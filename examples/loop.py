#!/usr/bin/env python3
"""Writes a script with a loop: loop.py ROUNDS. In each round four ranks split in two parts, add up in each, and free the part."""
import sys

print("ranks 4")
for round in range(int(sys.argv[1])):
    for rank in range(4):
        print(f"{rank}: split world {(rank >> round) % 2} 0 -> part{round}")
        print(f"{rank}: iallreduce part{round} sum i32 {rank + round} -> sum{round}")
    print(f"*: wait sum{round}")
    print(f"*: free part{round}")

#!/usr/bin/env bash
# Prints a script of 1,048,576 lines, the most that are run: the last one runs.
echo 'node a@h secret'
yes '# a comment counts as a line' | head -n 1048574
echo 'spawn a@h p'

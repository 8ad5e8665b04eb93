#!/usr/bin/env bash
# Prints a script of one line more than are run: the lines before it run, and the status is 6.
echo 'node a@h secret'
yes '# a comment counts as a line' | head -n 1048575
echo 'spawn a@h p'

#!/usr/bin/env bash
# Prints a script in which settle runs out of patience: it lets a million events happen, and no more.
cat << 'SCRIPT'
# Two nodes with a connection, and a process on each.
node a@h secret
node b@h secret
spawn a@h p
spawn b@h q
dial a@h b@h
settle

# p sends q a message more than settle has patience for. All of them travel.
SCRIPT
seq -f 'send p q %.0f' 1000001
cat << 'SCRIPT'

# settle takes a million of them, and says that the last one still travels. deliver takes that.
settle
deliver b@h a@h

# The messages wait in the order in which they were sent.
receive q
receive q
SCRIPT

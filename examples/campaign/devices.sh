#!/bin/sh
# Writes the device texts of a campaign: in each one fault of the hardware of
# fuel, each at another tick.
#
#     devices.sh FIRST COUNT FOLDER
#
# writes FOLDER/TICK.devices for COUNT ticks from FIRST on.
set -eu
tick=$1
last=$(($1 + $2 - 1))
while [ "$tick" -le "$last" ]; do
    echo "$tick FAULT fuel" > "$3/$tick.devices"
    tick=$((tick + 1))
done

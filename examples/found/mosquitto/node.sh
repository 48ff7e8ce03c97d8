#!/bin/sh
# A broker of mosquitto, with its database on the host's disk.
unset CDPATH POSIXLY_CORRECT; export LC_ALL=C
cd "$HINGE_NET/$HINGE_HOST" && exec mosquitto -c "$HINGE_NET/mosquitto.conf" >/dev/null 2>&1

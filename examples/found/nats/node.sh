#!/bin/sh
# A node of NATS on one of the hosts n1, n2 and n3, with its data on the host's disk.
exec nats-server -n "$HINGE_HOST" -js -sd "$HINGE_NET/$HINGE_HOST" --cluster_name c --cluster nats://0.0.0.0:6222 \
    --routes nats://n1:6222,nats://n2:6222,nats://n3:6222 >/dev/null 2>&1

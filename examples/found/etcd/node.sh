#!/bin/sh
# A node of etcd on one of the hosts n1, n2 and n3, with its data on the host's disk. A node that was there before joins again.
exec etcd --name "$HINGE_HOST" --data-dir "$HINGE_NET/$HINGE_HOST/data" --log-level panic \
    --heartbeat-interval 100 --election-timeout 1000 \
    --listen-peer-urls http://0.0.0.0:2380 --initial-advertise-peer-urls "http://$HINGE_HOST:2380" \
    --listen-client-urls http://0.0.0.0:2379 --advertise-client-urls "http://$HINGE_HOST:2379" \
    --initial-cluster n1=http://n1:2380,n2=http://n2:2380,n3=http://n3:2380 2>/dev/null
